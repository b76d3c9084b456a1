void print(const char *what, const char *text);
void print_number(const char *what, long number);
int get_shared(void);
long table_sum(void);
