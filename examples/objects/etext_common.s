# A common of that name.
        .comm etext,4,4
