#!/bin/sh
# Draws the table that kcount prints as an SVG picture: the observed count at each threshold, before the band from the least to the
# greatest count of the comparison sets.
#
#   examples/draw.sh                          draws examples/expected.csv to examples/picture.svg
#   examples/draw.sh TABLE.csv [PICTURE.svg]  draws another table (without PICTURE.svg: to TABLE.svg)
#   kcount | examples/draw.sh - PICTURE.svg   draws the program's output (PICTURE.svg may be -, standard output)
#
# It needs gnuplot (package gnuplot-nox, or the program that the variable GNUPLOT names). The same gnuplot draws the same bytes. The
# table itself is stored in the picture, as its description. The status is 0, 1 where nothing could be drawn, 2 for wrong arguments.
set -eu
LC_ALL=C
export LC_ALL
gnuplot=${GNUPLOT:-gnuplot}
folder=$(dirname "$0")

say() {
    printf 'draw.sh: %s\n' "$1" >&2
}
fail() {
    say "$1"
    exit 1
}

case $# in
    0) table=$folder/expected.csv picture=$folder/picture.svg ;;
    1) table=$1 picture=${1%.csv}.svg
        if [ "$table" = - ]; then picture=-; fi ;;
    2) table=$1 picture=$2 ;;
    *) say 'usage: draw.sh [TABLE.csv [PICTURE.svg]], - for standard input or output'
        exit 2 ;;
esac

# The table, without the carriage returns at the ends of its lines.
if [ "$table" = - ]; then
    rows=$(tr -d '\r')
elif [ -f "$table" ] && [ -r "$table" ]; then
    rows=$(tr -d '\r' <"$table")
else
    fail "cannot read the table $table"
fi

# What is wrong with the table, or nothing.
fault=$(printf '%s\n' "$rows" | awk -F, '
    function wrong(what) { print what; found = 1; exit }
    NR == 1 && $0 == "" { wrong("there is no table: the input is empty") }
    NR == 1 && $1 == "refused" {
        wrong("there is no table: the program refused " $2 " with number " $3 " at place " $4 " (see Refusals in README.md)")
    }
    NR == 1 && $0 != "threshold,observed,least,greatest" { wrong("line 1 is not the header of a table that kcount prints") }
    NR > 1 && $0 !~ /^[0-9]+,[0-9]+,[0-9]+,[0-9]+$/ && $0 !~ /^[0-9]+,[0-9]+,,$/ {
        wrong("line " NR " is not a row of a table that kcount prints")
    }
    NR == 2 { empty = $3 == "" }
    NR > 2 && empty != ($3 == "") { wrong("line " NR ": only some rows have least and greatest") }
    END { if (!found && NR < 2) print "the table has no rows" }
')
if [ -n "$fault" ]; then fail "$fault"; fi

command -v "$gnuplot" >/dev/null || fail "gnuplot is not installed (on Debian and Ubuntu: apt-get install gnuplot-nox)"

case $rows in
    *,) say 'the table has no comparison sets: only the observed counts are drawn' ;;
esac

# The axes, and what is plotted, as gnuplot is told it. Thresholds that span a factor of 20 or more are drawn on a logarithmic scale,
# since those near each other would otherwise fall together at the left. A threshold has its number below it where there is room,
# powers of ten first, then those that begin with 2 or 5. The band over one threshold would have no width, and a bar is drawn.
plot=$(printf '%s\n' "$rows" | awk -F, '
    function place(x) { return logarithmic ? log(x) : x }
    function apart(i, j) { return at[i] < at[j] ? at[j] - at[i] : at[i] - at[j] }
    function fits(i,    j) {
        for (j in shown) if (apart(i, j) < 5 + 4.15 * (length(x[i]) + length(x[j]))) return 0
        return 1
    }
    function show(numbers,    i) { for (i = 1; i <= n; i++) if (x[i] ~ numbers && fits(i)) shown[i] = 1 }
    NR > 1 { x[++n] = $1; for (i = 2; i <= 4; i += 2) if ($i + 0 > most) most = $i + 0; band = $3 != "" }
    END {
        logarithmic = x[1] > 0 && x[n] >= 20 * x[1]
        from = place(x[1])
        span = place(x[n]) - from
        width = 685 - 9.5 * length(sprintf("%.0f", most))
        for (i = 1; i <= n; i++) at[i] = span > 0 ? (place(x[i]) - from) / span * width : 0
        show("^10*$"); show("^[25]0*$"); show(".")
        for (i = 1; i <= n; i++) tics = tics (i > 1 ? ", " : "") "\"" (i in shown ? x[i] : "") "\" " x[i]
        print "set xtics (" tics ")"
        margin = span > 0 ? span / 40 : 1
        if (logarithmic) print "set logscale x"
        if (logarithmic) printf "set xrange [%.6f:%.6f]\n", exp(from - margin), exp(from + span + margin)
        else printf "set xrange [%.6f:%.6f]\n", from - margin, from + span + margin
        print "set xlabel \"threshold (m)" (logarithmic ? ", logarithmic scale" : "") "\" offset 0,-0.3"
        print "set yrange [0:" (most > 0 ? "*" : 1) "]"
        if (most <= 10) print "set ytics 1"
        fill = "fillstyle transparent solid 0.4 noborder "
        name = "title \"least to greatest of the comparison sets\", "
        printf "plot "
        if (band && n > 1) {
            printf "$table using 1:3:4 with filledcurves fillcolor \"#6fb1e0\" " fill name
            for (i = 3; i <= 4; i++) printf "$table using 1:%d with lines linecolor \"#6fb1e0\" linewidth 1 notitle, ", i
        } else if (band) printf "$table using 1:3:($1-0.04):($1+0.04):3:4 with boxxyerror linecolor \"#6fb1e0\" " fill name
        print "$table using 1:2 with linespoints linecolor \"#b8450b\" linewidth 2.2 pointtype 7 pointsize 0.6 title \"observed\""
    }
')

drawn=$("$gnuplot" -d <<GNUPLOT
set terminal svg size 800,480 noenhanced background '#ffffff' font 'sans-serif,14'
\$table << END
$(printf '%s\n' "$rows" | sed 1d)
END
set datafile separator comma
set ylabel 'ordered pairs of reports'
set format y '%.0f'
set border 3 linecolor '#555555'
set tics nomirror out scale 0.6 textcolor '#222222' font ',13'
set grid xtics ytics back linetype 1 linewidth 0.7 linecolor '#dddddd'
set key tmargin left Left reverse invert samplen 3 spacing 1.2
set rmargin 3
$plot
GNUPLOT
) || fail 'gnuplot could not draw the table'

# The picture's own title, and the table as its description, in place of those that gnuplot writes.
picture_text=$(printf '%s\n' "$drawn" | rows=$rows awk '
    /^<title>/ { print "<title>Ordered pairs of reports within each threshold</title>"; next }
    /^<desc>/ {
        gsub(/<desc>Produced by GNUPLOT | *<\/desc>/, "")
        print "<desc>Drawn with gnuplot " $0 " from this table:\n" ENVIRON["rows"] "\n</desc>"
        next
    }
    { print }
')
if [ "$picture" = - ]; then
    printf '%s\n' "$picture_text"
else
    { printf '%s\n' "$picture_text" >"$picture"; } 2>/dev/null || fail "cannot write the picture $picture"
fi
