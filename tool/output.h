/* Standard output. Answers leave it record by record, so that whoever reads them has each when it is given; one that cannot be
 * written ends the tool there and then: an answer that was not printed was not given. */
#ifndef TOOL_OUTPUT_H
#define TOOL_OUTPUT_H

/* Before anything is printed. */
void output_start(void);

/* After the answer to each record. */
void output_record(void);

/* After the last. */
void output_end(void);

#endif
