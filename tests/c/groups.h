/* The groups of tests, each a function that prints what it did in one line, or reports what differed. */
#ifndef GROUPS_H
#define GROUPS_H

#define COUNT(array) (sizeof(array) / sizeof(array)[0])

void cases(void);   /* the lines of standard input, made by the reference program */
void order(void);   /* the order of the refusals */
void schemes(void); /* the schemes beside each other */
void opening(void); /* blocks that do not open */
void blank(void);   /* blocks of zeros, and such as are nearly so */
void finding(void); /* the blocks of a pack, found by their places */
void runs(void);    /* runs of blocks, sealed and opened in one call */
void keys(void);    /* keys of both lengths and of others */
void slices(void);  /* where the bytes stand, and how many they are */
void stack(void);   /* how much stack a call takes */
void header(void);  /* the constants and the sentences of the header */
void threads(void); /* eight threads at once */
void wrong(void);   /* wrong libraries, each of which one of the groups above has to report; reads a file of cases */

#endif
