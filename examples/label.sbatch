#!/bin/sh
# Labels one part of a collection for each task of an array of Slurm:
#     parallel --pipe-part --arg-file mine.sdf --recend '\n$$$$\n' --block 16M 'cat > part-{#}.sdf'
#     sbatch --wait --array=1-"$(ls part-*.sdf | wc -l)" examples/label.sbatch
#     cat $(ls -v labelled-*.sdf) > labelled.sdf
#SBATCH --job-name=cip
#SBATCH --output=cip-%a.log
part=$SLURM_ARRAY_TASK_ID
# status 1 means that a record is refused, or has a unit over the bound; all is written
cip annotate < "part-$part.sdf" > "labelled-$part.new" || [ $? -eq 1 ] || exit 3
mv "labelled-$part.new" "labelled-$part.sdf"
