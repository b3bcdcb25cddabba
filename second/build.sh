#!/bin/sh
# Builds second and generate: build.sh [FOLDER]
# The folder is made if it is not there; nothing is built in the source folder.
# CC and EXTRA (more options, for example sanitizers) may be set from outside.
set -eu
source=$(cd "$(dirname "$0")" && pwd)
folder=${1:-"$source/../target/second"}
mkdir -p "$folder"
for program in second generate; do
    # EXTRA is meant to be split into words
    ${CC:-gcc} -std=c99 -O2 -Wall -Wextra -Werror -pedantic ${EXTRA:-} \
        -o "$folder/$program" "$source/$program.c" "$source/machine.c"
done
