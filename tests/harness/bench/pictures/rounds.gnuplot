# A line of $rounds: n; least, mean and greatest of the random plants; the slowest plant on the cube and on the ring; the worst case on the cube, the
# triangular and the square bound, and the worst case on the ring. - is none.
set terminal svg size 760,640 font "sans-serif,13" background "#ffffff"
set encoding utf8
set datafile missing "-"
set title "Closed rounds until every live board suspects exactly the dead ones"
set xlabel "boards in the plant (n)"
set ylabel "closed rounds"
set xrange [-0.5:8.6]
set yrange [0:37]
set ytics 4
set tics nomirror scale 0
set border 1
set grid ytics linetype 1 linecolor "#e4e4e4"
set key top left reverse Left
above(rounds) = rounds > 1 ? sprintf("%d", rounds) : ""
plot $rounds using 0:9:xticlabels(1) with linespoints linewidth 2 linecolor "#7a7a7a" pointtype 5 pointsize 0.7 title "d·d: square bound", \
     "" using 0:9:(above($9)) with labels right offset -0.8,0.6 notitle, \
     "" using 0:8 with linespoints linewidth 2 linecolor "#b8641f" dashtype 2 pointtype 5 pointsize 0.7 title "1 + d(d − 1)/2: triangular bound", \
     "" using 0:8:(above($8)) with labels right offset -0.8,0.6 notitle, \
     "" using 0:10 with linespoints linewidth 2 linecolor "#7a3f9d" dashtype 3 pointtype 5 pointsize 0.7 \
         title "⌊n/2⌋: worst-case latency of the ring, proved and reached", \
     "" using 0:7 with linespoints linewidth 2 linecolor "#2f7d32" pointtype 5 pointsize 0.7 \
         title "f(d): worst-case latency of the cube, proved and reached", \
     "" using 0:5 with points linecolor "#a8201f" pointtype 13 title "slowest plant, on either", \
     "" using 0:6 with points linecolor "#a8201f" pointtype 13 notitle, \
     "" using 0:5:5 with labels left offset 0.8,0.6 notitle, \
     "" using 0:6:6 with labels left offset 0.8,0.6 notitle, \
     "" using 0:3:2:4 with yerrorbars linecolor "#1f5fa8" linewidth 2 pointtype 7 pointsize 0.8 \
         title "random plants on the cube: least, mean and greatest", \
     "" using 0:3:($3 > 0 ? sprintf("%.2f", $3) : "") with labels left offset 1.2,0 notitle
