#!/bin/sh
# Tells snakemake of a job of Slurm whether it is running, success or failed, by scontrol, and by sacct where scontrol has forgotten it.
state=$(scontrol show job "$1" 2>/dev/null | sed -n 's/.*JobState=\([A-Z_]*\).*/\1/p')
[ -n "$state" ] || state=$(sacct --jobs "$1" --allocations --noheader --parsable2 --format=State 2>/dev/null | sed -n '1s/ .*//p')
case $state in
  COMPLETED) echo success ;;
  PENDING | CONFIGURING | RUNNING | COMPLETING | SUSPENDED | REQUEUED | RESIZING | STOPPED | SIGNALING | STAGE_OUT) echo running ;;
  *) echo failed ;;
esac
