#include "help.h"

#include <stdio.h>

#include "stamp.h"

void print_help(void)
{
#define PRINT_REFUSAL(name, number, sentence) printf("%3d %s\n", number, sentence);
    fputs("usage: stamp read KIND [HEX..] [--raw] [--json]\n"
          "       stamp write KIND [TEXT..] [--binary] [--version N] [--digits N] [--raw | --json]\n"
          "       stamp explain [HEX..] [--raw] [--json]\n"
          "       stamp instant [STAMP..] [--raw] [--json]\n"
          "       stamp restate [STAMP..] --to OFFSET [--raw] [--json]\n"
          "       stamp difference [A B ..] [--json]\n"
          "       stamp add [STAMP..] MICROS [--raw] [--json]\n"
          "       stamp schedule check [FILE..] [--json]\n"
          "       stamp schedule list [FILE] [--json]\n"
          "       stamp schedule holds [FILE..] --channel N (--at TEXT | --instant MICROS) [--json]\n"
          "       stamp schedule make\n"
          "       stamp -h | -V\n"
          "Without any stamp, or for a -, the stamps come from standard input, one a line.\n"
          "--raw: write prints the octets of its stamp and nothing else,\n"
          "       the others take standard input as the octets of one stamp\n"
          "KIND: date datetz time timetz datetime datetimetz; for read also\n"
          "      date-or-datetz time-or-timetz datetime-or-datetimetz\n"
          "HEX:  the contents octets of one stamp, two hex digits each\n"
          "TEXT: the value as ISO 8601 text, such as 2019-12-31T23:59:59.999-04:30\n"
          "STAMP, A, B: a datetimetz, as HEX of any form or as TEXT; difference is A less B\n"
          "OFFSET: from UTC, +hh:mm or -hh:mm, at most 23:59\n"
          "MICROS: how many microseconds later, a signed number of 64 bits\n"
          "FILE: a schedule file; standard input without any, or for a -. make takes lines from standard input,\n"
          "      each a STAMP (without blanks), a channel and a correction, and prints the octets of their schedule\n"
          "--channel, --at, --instant: which correction holds on a channel, 1 to 16, at the TEXT of a datetimetz,\n"
          "      or now (--at now), or so many microseconds after 0001-01-01T00:00 UTC\n"
          "Exit status: 0 accepted, 1 refused, 2 usage, or input or output failed.\n"
          "Refusals:\n", stdout);
    STAMP_REFUSALS(PRINT_REFUSAL)
#undef PRINT_REFUSAL
}
