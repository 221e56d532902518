# Draws sweep.csv, in the folder where it is called: how the steps of a run depend on how long a hart waits.
set datafile separator ','
set datafile missing NaN
set terminal pngcairo size 1000,700 font 'sans,11'
set output 'sweep.png'
set title 'A shared counter under LogTM: steps of a run, by the wait after an abort (normal cache)'
set xlabel 'FIRST: the wait before it grows, as a power of 2'
set ylabel 'steps until all harts have exited'
set logscale y
set xrange [-0.3:7.3]
set key outside right
plot for [harts in '2 4 8'] for [growth in '0 1 2'] \
    'sweep.csv' using (stringcolumn(2) eq 'normal' && $1 == harts && $4 == growth && $5 == 0 ? $3 : NaN):6 \
    with linespoints title sprintf('%s harts, growth %s', harts, growth)
