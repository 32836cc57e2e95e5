/* Reads records from standard input, and writes those whose name matches and whose time overlaps a window:
   what a user of libmseed would write in place of `velkatsa select`. It keeps the order of the input and
   doubles.

   Usage: filter SOURCE START END, as in: filter 'XX_S3_00_BHZ_?' 2024-01-01T00:00:00 2024-01-03T00:00:00 */
#include <libmseed.h>
#include <stdio.h>

int
main (int argc, char **argv)
{
  Selections *selections = NULL;
  MSRecord *record       = NULL;
  char name[64];
  int status;

  if (argc != 4)
    return 1;
  if (ms_addselect (&selections, argv[1], ms_timestr2hptime (argv[2]), ms_timestr2hptime (argv[3])))
    return 1;
  while ((status = ms_readmsr (&record, "-", -1, NULL, NULL, 0, 0, 0)) == MS_NOERROR)
  {
    msr_srcname (record, name, 1);
    if (ms_matchselect (selections, name, record->starttime, msr_endtime (record), NULL))
      fwrite (record->record, 1, record->reclen, stdout);
  }
  return status == MS_ENDOFFILE ? 0 : 2;
}
