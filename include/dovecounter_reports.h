/* Reports of cmisctl as texts, for hosted programs: both functions allocate by malloc. The shared library has them, the
   static library for firmware hasn't. They are proved like those of dovecounter.h, whose conditions hold here too. */
#ifndef DOVECOUNTER_REPORTS_H
#define DOVECOUNTER_REPORTS_H

#include <dovecounter.h>

#ifdef __cplusplus
extern "C" {
#endif

/* What both return besides DOVECOUNTER_DONE and DOVECOUNTER_TOO_SMALL. */
enum dovecounter_report_status {
    DOVECOUNTER_REPORT_FAULT = 5, /* there is no report: the text is the line of the fault, such as `fault RP1 3` */
    DOVECOUNTER_NO_MEMORY = 6     /* malloc gave none: nothing is written */
};

/* Puts what `cmisctl details --json` prints of an image into buffer, without a NUL, and its length into *text_length,
   which it also does if the buffer is too small. The image is a text (docs/formats.md, "Image"). */
uint32_t dovecounter_details(const uint8_t *image, size_t image_length, uint8_t *buffer, size_t buffer_size,
                             size_t *text_length);

/* The same of `cmisctl metrics`; if all_flags is not 0, of `cmisctl metrics --flags all`. A fault of a report is one
   of the metrics. */
uint32_t dovecounter_metrics(const uint8_t *image, size_t image_length, uint8_t all_flags, uint8_t *buffer,
                             size_t buffer_size, size_t *text_length);

#ifdef __cplusplus
}
#endif

#endif
