#!/usr/bin/env bash
# Lets LaTeX typeset a page of the painter `tex`, and GAP read one of the painter `gap`. It is no part of the gate.
# LaTeX and GAP are the Debian packages texlive-latex-base and gap-core; where one is missing, the script says so.
# Usage: tools/pages.sh [E N], by default 2 8.
set -eu
top=$(cd "$(dirname "$0")/.." && pwd)
e=${1:-2}
n=${2:-8}
place=$(mktemp -d)
trap 'rm -rf "$place"' EXIT
status=0

printf 'painter tex\ncrystal %s %s\n' "$e" "$n" >"$place/tex.txt"
"$top/specht" "$place/tex.txt" | sed -n '/^% table /,/^\\end{tabular}/p' >"$place/table.tex"
cat >"$place/page.tex" <<'END'
\documentclass{article}
\usepackage[landscape,margin=5mm]{geometry}
\begin{document}
\input{table.tex}
\end{document}
END
if command -v pdflatex >/dev/null; then
  if (cd "$place" && pdflatex -interaction=nonstopmode -halt-on-error page.tex >page.log); then
    echo "LaTeX: typeset"
  else
    tail -n 20 "$place/page.log"
    status=1
  fi
else
  echo "LaTeX: not here (texlive-latex-base)"
fi

printf 'painter gap\ncrystal %s %s\n' "$e" "$n" >"$place/gap.txt"
{
  echo 'v := Indeterminate(Rationals, "v");;'
  "$top/specht" "$place/gap.txt" | sed -n 's/^\(m1 := .*\);$/\1;;/p'
  echo 'Print(Length(m1), " lines of ", Length(m1[1]), "\n");'
  echo 'QUIT;'
} >"$place/page.g"
if command -v gap >/dev/null; then
  if gap -q --nointeract "$place/page.g" >"$place/gap.log" 2>&1 && grep -q "lines of" "$place/gap.log"; then
    echo "GAP: read, $(grep "lines of" "$place/gap.log")"
  else
    cat "$place/gap.log"
    status=1
  fi
else
  echo "GAP: not here (gap-core)"
fi
exit "$status"
