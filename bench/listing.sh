#!/bin/sh
# Times the listing of a made office of 64 classes, 8 roles and about 100 axioms, and compares its lines with those of tools/closure.py.
#
#     (cd crates/listing && rt run < ../../samples/office.sheet) && bench/listing.sh [START]
#
# START is the start number of the office (tools/office.py), 6 if none is given. Each of five runs gives a line: the seconds from start
# to end, and the most memory that was resident.
cd "$(dirname "$0")/.." || exit 1
folder=$(mktemp -d) || exit 1
trap 'rm -r "$folder"' EXIT
python3 tools/office.py "${1:-6}" > "$folder/sheet" || exit 1
for _ in 1 2 3 4 5; do
    /usr/bin/time -f '%e s, %M KB' crates/listing/out/listing < "$folder/sheet" > "$folder/lines" || exit 1
done
echo "$(wc -l < "$folder/lines") lines"
if python3 tools/closure.py "$folder/sheet" list | cmp -s - "$folder/lines"; then
    echo 'the same as tools/closure.py lists'
else
    echo 'not the same as tools/closure.py lists'
    exit 1
fi
