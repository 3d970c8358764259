#!/usr/bin/env bash
# Builds the program, runs the word count on a fresh copy of the example's folder, and shows what came out.
#
# It needs the toolchain (`rt`) and Python 3. Status: 0 where the run ended well, 1 otherwise.
set -e
if [ $# -gt 0 ]; then
    sed -n '2,4s/^# \{0,1\}//p' "$0"
    exit 0
fi
top="$(cd "$(dirname "$0")/.." && pwd)"
topicfile="$top/tools/topicfile.py"
folder="$(mktemp -d)/word_count"
lines="$folder/streams/kafka/lines/0.log"

echo "1. Copying examples/word_count to $folder"
cp -r "$top/examples/word_count" "$folder"

echo "2. Proving and building the program, and running it on the folder. From nothing this takes 13 to 21 minutes on four"
echo "   processors, for all that the program is made of is proved first; later a few seconds. What is proved stands in"
echo "   $folder.build"
(cd "$top/crates/samza_run" && rt run -- run "$folder") > "$folder.build" 2>&1 || { tail -n 20 "$folder.build"; exit 1; }
program="$top/crates/samza_run/out/samza_run"

echo "3. The messages of the input were:"
"$topicfile" show "$lines"
echo "4. The report of the run:"
sed -n '/^container /,/^total new /p' "$folder.build"
echo "5. What was sent to kafka.totals:"
"$topicfile" show "$folder/tasks/0/16.log"
echo "6. The changelog of the store counts:"
"$topicfile" show "$folder/tasks/0/1.log"
echo "7. The checkpoint:"
"$topicfile" checkpoint "$folder/tasks/0/0.log"
echo "8. One message more, and a second run, by the built program itself:"
echo "   printf 'to sleep\\n' | $topicfile make $lines --append"
printf 'to sleep\n' | "$topicfile" make "$lines" --append
echo "   $program run $folder"
"$program" run "$folder"
