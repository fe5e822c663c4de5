/* See stdio.h beside this file. */
#ifndef BARE_SIGNAL_H
#define BARE_SIGNAL_H

#define SIGPIPE 13
#define SIGXFSZ 25
#define SIG_IGN ((void (*)(int))1)
void (*signal(int number, void (*handler)(int)))(int);

#endif
