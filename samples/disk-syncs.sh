#!/bin/sh
# Shows that the disk over a file syncs: opening it syncs the file, drops the system's copy of it and syncs its folder, and `sync`
# syncs the file.
# It traces the test of crates/pm_disk over real files, whose program `rt test` leaves in that crate.
# Status 1 where a sync is missing.
test_name=tests::a_file_keeps_what_was_written_and_has_one_holder
tests=$(cd "$(dirname "$0")/.." && pwd)/crates/pm_disk/out/pm_disk_tests

if ! command -v strace >/dev/null; then
    echo "skipped: strace is not installed"
    exit 0
fi
if ! [ -x "$tests" ]; then
    echo "there is no $tests: run 'rt test' in crates/pm_disk first"
    exit 1
fi

folder=$(mktemp -d) || exit 1
trap 'rm -rf "$folder"' EXIT
cd "$folder" || exit 1
if ! strace -f -y -o trace -e trace=openat,flock,ftruncate,pwrite64,pread64,fsync,fadvise64,close \
    "$tests" "$test_name" >/dev/null; then
    echo "the test failed"
    exit 1
fi
grep -F -e "$folder" trace | grep -v -e ld.so.cache -e libc.so | sed -e 's/^[0-9]* *//' -e "s|$folder|FOLDER|g"

awk -v folder="<$folder>" -v file="<$folder/pmd-first.journal" '
    function missing(what) { print "missing: " what; bad = 1 }
    / = -1 / { next }
    /flock\(/ && index($0, file) { synced_folder = 0; dropped = 0 }
    /fadvise64\(/ && index($0, file) && /DONTNEED/ { dropped = 1 }
    /(ftruncate|pwrite64|pread64)\(/ && index($0, file) && !dropped {
        missing("the drop of the copy of the file before it is used"); dropped = 1
    }
    /fsync\(/ && index($0, folder) { synced_folder = 1; folders++ }
    /(ftruncate|pwrite64|pread64)\(/ && index($0, file) && !synced_folder {
        missing("a sync of the folder before the file is used"); synced_folder = 1
    }
    /(ftruncate|pwrite64)\(/ && index($0, file) { unsynced = 1 }
    /fsync\(/ && index($0, file) { unsynced = 0; files++ }
    /close\(/ && index($0, file) && unsynced { missing("a sync of the file after its last write or cut"); unsynced = 0 }
    END {
        if (folders < 2) missing("a sync of the folder at each of two openings")
        if (files < 1) missing("a sync of the file")
        printf "syncs of the folder: %d, of the file: %d\n", folders, files
        exit bad
    }' trace
