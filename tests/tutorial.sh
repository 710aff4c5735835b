#!/usr/bin/env bash
# Runs the commands of the tutorial, the how-tos and the README's quick start, each document in one
# shell, and compares what each prints with what the document says.
# usage: tests/tutorial.sh PROGRAM
set -euo pipefail
. "$(dirname "$0")/common.sh"
. "$(dirname "$0")/blocks.sh"
wants git git
wants patch patch
cd "$(dirname "$0")/.."
all=0
for document in docs/TUTORIAL.md docs/HOWTO.md README.md; do
  run_blocks "$document"
  all=$((all + compared))
done
echo "$all commands print what the tutorial, the how-tos and the README say"
