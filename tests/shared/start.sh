# For the scripts in the folders beside this one, whose first lines are
#     set -u
#     . "$(dirname "$0")/../shared/start.sh" || exit 1
# Goes to the top folder of the repository, makes a folder $work that is gone when the script ends, and counts cases.
cd "$(dirname "${BASH_SOURCE[0]}")/../.." || exit 1
work=$(mktemp -d) || exit 1
trap 'rm -rf "$work"' EXIT
. tests/shared/counting.sh
