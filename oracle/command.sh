# Sets `command` to the words that run the proved program, found once for many nights; read with `source` at the
# repository's root. SHEET_PROGRAM may name a built program; else it is built where it is missing or old.
source ./program.sh
if [ -z "${SHEET_PROGRAM:-}" ]; then build sheet || exit 2; fi
words "${SHEET_PROGRAM:-$(program sheet)}"
