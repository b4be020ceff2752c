#!/usr/bin/env bash
# Runs the tests of the Python package, by the program that is built, and looks at its types: python.sh [PYTHON]. Without
# PYTHON it is that of the system. If all is so this prints nothing, but for what is skipped.
set -uo pipefail
top=$(dirname "$(dirname "$(readlink -f "${BASH_SOURCE[0]}")")")
# shellcheck source=tests/common.bash
. "$top/tests/common.bash"

python=python3
[ ! -x /usr/bin/python3 ] || python=/usr/bin/python3
python=${1-$python}
# The tests leave no compiled files in the checkout.
export PYTHONDONTWRITEBYTECODE=1 TABLELAYOUT_PROGRAM=${program:?}
"$python" -c 'import sys; sys.path.append("/usr/lib/python3/dist-packages"); import html5lib' 2>/dev/null ||
    skip "there is no html5lib (python3-html5lib), so pages of HTML are not tried"
"$python" -c 'import rich' 2>/dev/null || skip "there is no rich (python3-rich), so pages in it are not tried"
said=$(cd "$top/tests/python" && "$python" -m unittest 2>&1) || { echo "$said" && touch "$failed"; }

if command -v mypy >/dev/null; then
    said=$(cd "$top/integrations/python" && mypy --cache-dir "${room:?}/types" --config-file pyproject.toml) || { echo "$said" && touch "$failed"; }
else
    skip "there is no mypy, so types are not looked at"
fi

# A wheel is built without a network, and works without a checkout.
if "$python" -c 'import setuptools, wheel, pip' 2>/dev/null; then
    cp -R "$top/integrations/python" "$room/package"
    said=$(cd "$room/package" && "$python" -m pip wheel -q --no-index --no-deps --no-build-isolation -w "$room" . 2>&1) ||
        { echo "$said" && touch "$failed"; }
    mkdir "$room/installed"
    (cd "$room/installed" && "$python" -m zipfile -e "$room"/tablelayout-*.whl .)
    names "$room/installed/tablelayout" | grep -c '\.py$' | expect_text "$(names "$top/integrations/python/tablelayout" | grep -c '\.py$')" "modules of the wheel"
    names "$room/installed/tablelayout" | grep -x py.typed | expect_text py.typed "in the wheel"
else
    skip "there is no setuptools, wheel or pip, so no wheel is built"
fi

[ ! -e "$failed" ]
