# Draws what bench/growth has counted: the instructions of an event over the number of entries, with
# a line for each kind of event. `data` is the file of the numbers with their names above, `columns`
# the number of its columns, and `drawing` the file to write.
set terminal svg size 1000,640 font "sans-serif,13" background rgb "white"
set output drawing
set logscale xy
set autoscale xfix
set format y "10^{%T}"
set xlabel "entries"
set ylabel "instructions of an event, without those of digits and digests"
set key outside right center noenhanced
set grid
plot for [column = 2:columns] data using 1:column:xtic(1) title columnheader(column) \
    with linespoints linewidth 2
