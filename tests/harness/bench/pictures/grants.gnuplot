# A line of $grants: wiring and n; of all crashes in a round of a fresh plant and of random plants the one that came nearest to its bound: its grants
# and its bound. - is none.
set terminal svg size 760,608 font "sans-serif,13" background "#ffffff"
set encoding utf8
set datafile missing "-"
set title "Grants until one more dead board is known, as a share of what is proved"
set xlabel "% of the grants that are proved to be enough"
set xrange [0:100]
set yrange [11.6:-0.6]
set tics nomirror scale 0
set border 1
set grid xtics linetype 1 linecolor "#d0d0d0"
set key at 100,3.9 top right reverse Left width -10
share(grants, bound) = 100.0 * grants / bound
plot $grants using (0):($0 - 0.2):(0):(share($2, $3)):($0 - 0.37):($0 - 0.03):yticlabels(1) \
         with boxxyerror fillstyle solid linecolor "#2f7d32" title "all crashes in a round of a fresh plant", \
     "" using (share($2, $3)):($0 - 0.2):(sprintf("%d of %d", $2, $3)) with labels left offset 0.6,0 notitle, \
     "" using (0):($0 + 0.2):(0):(share($4, $5)):($0 + 0.03):($0 + 0.37) \
         with boxxyerror fillstyle solid linecolor "#1f5fa8" title "the nearest random plant", \
     "" using (share($4, $5)):($0 + 0.2):(sprintf("%d of %d", $4, $5)) with labels left offset 0.6,0 notitle
