// What the two objects of the library have in common.
extern int shared;
const char *name(void);
int thrice(int);
const char *second(const char *);
int hidden_sum(int, int);
int counted(void);
void tell(int (*)(int));
