# A line of $speed: what is called, and for 8, 19 and 64 boards the nanoseconds of the library and of plain Rust.
set terminal svg size 900,430 font "sans-serif,13" background "#ffffff"
set encoding utf8
set multiplot layout 1,3 title "Nanoseconds a call, the library beside plain Rust (on a logarithmic scale)"
set logscale x
set xrange [10:60000]
set yrange [8.6:-0.6]
set tics nomirror scale 0
set border 1
set grid xtics linetype 1 linecolor "#d0d0d0"
set key off
set bmargin 4
do for [k = 0:2] {
    set title word("8 19 64", k + 1)." boards"
    set xtics ("10" 10, "100" 100, "1,000" 1000, "10,000" 10000)
    if (k == 0) { set lmargin at screen 0.23; set rmargin at screen 0.47 }
    if (k == 1) { set lmargin at screen 0.49; set rmargin at screen 0.73 }
    if (k == 2) { set lmargin at screen 0.75; set rmargin at screen 0.99; set key at graph 1,-0.1 horizontal }
    if (k == 0) {
        plot $speed using (10):($0 - 0.2):(10):2:($0 - 0.37):($0 - 0.03):yticlabels(1) with boxxyerror fillstyle solid linecolor "#2f7d32" notitle, \
             "" using (10):($0 + 0.2):(10):3:($0 + 0.03):($0 + 0.37) with boxxyerror fillstyle solid linecolor "#b0b0b0" notitle
        unset ytics
    } else {
        plot $speed using (10):($0 - 0.2):(10):(column(2 + 2 * k)):($0 - 0.37):($0 - 0.03) \
                 with boxxyerror fillstyle solid linecolor "#2f7d32" title "library", \
             "" using (10):($0 + 0.2):(10):(column(3 + 2 * k)):($0 + 0.03):($0 + 0.37) \
                 with boxxyerror fillstyle solid linecolor "#b0b0b0" title "plain Rust"
    }
}
