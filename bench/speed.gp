# speed.gp SPEED.csv SPEED.png: four panels, a row for each library, a dot for each size. 1 MiB and 8 MiB are left out: they lie on 64 KiB.
csv = ARG1
set datafile separator ','
set terminal pngcairo size 900,740 font 'DejaVu Sans,10' background '#ffffff'
set output ARG2

rows = 10
array library[rows] = ['smb3seal', 'mbedTLS', 'nettle', 'wolfSSL', 'libtomcrypt', 'OpenSSL', 'OpenSSL', \
'mbedTLS', 'nettle', 'OpenSSL']
array path[rows] = ['software', 'software', 'software', 'software', 'software', 'scalar', 'vector', \
'hardware', 'hardware', 'hardware']
row(l, p) = sum [i = 1:rows] (library[i] eq l && path[i] eq p ? i : 0)
name(i) = i == 1 ? '{/:Bold smb3seal}' : library[i].', '.path[i]

sizes = 3
array size[sizes] = [64, 1024, 65536]
array size_name[sizes] = ['64 B', '1 KiB', '64 KiB']
array colour[sizes] = ['#74add1', '#f46d43', '#313695']
array shape[sizes] = [7, 5, 13]
speed(work, n) = strcol(1) eq work && column(2) == n ? column(6) : NaN
calls(work) = strcol(1) eq work ? 1000 / column(5) : NaN

set yrange [rows + 0.7 : 0.3]
set logscale x
set grid x lc '#dddddd' lt 1
set border 3 lc '#666666'
set tics nomirror
set object 1 rectangle from graph 0, first 0.55 to graph 1, first 1.45 behind fc '#fff2cc' fs noborder
set arrow 1 from graph 0, first 7.5 to graph 1, first 7.5 nohead dt 2 lc '#aaaaaa'

left = "set lmargin at screen 0.175; set rmargin at screen 0.565; set ytics (); do for [i = 1:rows] { set ytics add (name(i) i) }"
right = "set lmargin at screen 0.595; set rmargin at screen 0.97; set ytics (); do for [i = 1:rows] { set ytics add ('' i) }"
upper = "set tmargin at screen 0.875; set bmargin at screen 0.565"
lower = "set tmargin at screen 0.445; set bmargin at screen 0.135"
ours(work) = real(system(sprintf("awk -F, '$1 == \"%s\" && $2 == 65536 && $3 == \"smb3seal\" { print $6 }' %s", work, csv)))
line = "set arrow 2 from ours(work), graph 0 to ours(work), graph 1 nohead dt 3 lc '#b8860b'"
dots = "plot for [k = 1:sizes] csv using (speed(work, size[k])):(row(strcol(3), strcol(4))) skip 1 \
with points pt shape[k] ps 1.4 lc rgb colour[k] title size_name[k]"

set multiplot title 'smb3seal beside other libraries (right is faster)' font 'DejaVu Sans,13'
set key at screen 0.97, 0.945 right horizontal samplen 0.5 width 1 reverse Left
set label 1 \
'hardware: AES-NI, PCLMULQDQ and SHA extensions, as far as the library uses them. vector: OpenSSL with none of these three.' \
at screen 0.02, 0.042 textcolor '#555555' font 'DejaVu Sans,9'
set label 2 'scalar: OpenSSL with no extension at all. Dotted line: smb3seal at 64 KiB.' \
at screen 0.02, 0.018 textcolor '#555555' font 'DejaVu Sans,9'

work = 'seal CCM'
set title 'Sealing, AES-128-CCM' offset 0, -0.5
set xlabel 'megabytes a second of processor time' offset 0, 0.4
set xtics (1, 10, 20, 50, 100, 200, 500, 1000, 2000, 5000)
set xrange [20:3000]
@left; @upper; @line
@dots
unset key
unset label 1
unset label 2

work = 'seal GCM'
set title 'Sealing, AES-128-GCM'
set xtics (1, 10, 100, 1000, 10000)
set xrange [0.7:10000]
@right; @upper; @line
@dots

work = 'fold (SHA-512)'
set title 'Folding into the preauthentication hash (SHA-512)'
set xtics (50, 100, 200, 500, 1000)
set xrange [50:1200]
@left; @lower; @line
@dots

work = 'derive keys'
set title 'Deriving the four keys (HMAC-SHA-256)'
set xlabel 'derivations a millisecond of processor time'
set xrange [90:1500]
@right; @lower
unset arrow 2
plot csv using (calls(work)):(row(strcol(3), strcol(4))) skip 1 with points pt 7 ps 1.4 lc rgb '#333333' notitle
unset multiplot
