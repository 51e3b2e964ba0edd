What a terminal gets beside what is asked for. `terminal.py` runs a command on one.

  $ printf 'import pty, sys\nsys.exit(pty.spawn(["env", "-u", "NO_COLOR", "TERM=xterm", "sh", "-c", sys.argv[1]]) >> 8)\n' >terminal.py
  $ printf '<p>x' >a.html
  $ printf '<p>y<p>z' >b.html

Names of files have colours.

  $ python3 terminal.py 'tl select -t p a.html b.html 2>said'
  \x1b[35ma.html\x1b[0m\x1b[36m:\x1b[0mx\x0d (esc)
  \x1b[35mb.html\x1b[0m\x1b[36m:\x1b[0my\x0d (esc)
  \x1b[35mb.html\x1b[0m\x1b[36m:\x1b[0mz\x0d (esc)
  $ python3 terminal.py 'tl select -l p a.html b.html 2>said'
  \x1b[35ma.html\x1b[0m\x0d (esc)
  \x1b[35mb.html\x1b[0m\x0d (esc)
  $ python3 terminal.py 'tl select -t p a.html 2>said'
  x\x0d (esc)
  $ python3 terminal.py 'tl select --jsonl p a.html b.html 2>said'
  {"file":"a.html","attributes":{},"name":"p","node":3,"start":0,"end":3,"text":"x"}\x0d (esc)
  {"file":"b.html","attributes":{},"name":"p","node":3,"start":0,"end":3,"text":"y"}\x0d (esc)
  {"file":"b.html","attributes":{},"name":"p","node":5,"start":4,"end":7,"text":"z"}\x0d (esc)

They have none with NO_COLOR, on a terminal that takes none, and elsewhere.

  $ python3 terminal.py 'NO_COLOR=1 tl select -l p a.html b.html 2>said'
  a.html\x0d (esc)
  b.html\x0d (esc)
  $ python3 terminal.py 'NO_COLOR="$(printf "\377")" tl select -l p a.html 2>said'
  a.html\x0d (esc)
  $ python3 terminal.py 'NO_COLOR= tl select -l p a.html 2>said'
  \x1b[35ma.html\x1b[0m\x0d (esc)
  $ python3 terminal.py 'TERM=dumb tl select -l p a.html b.html 2>said'
  a.html\x0d (esc)
  b.html\x0d (esc)
  $ python3 terminal.py 'env -u TERM tl select -l p a.html b.html 2>said'
  a.html\x0d (esc)
  b.html\x0d (esc)
  $ python3 terminal.py 'tl select -l p a.html b.html 2>said | cat'
  a.html\x0d (esc)
  b.html\x0d (esc)
  $ python3 terminal.py 'tl select -l p a.html b.html >said' >shown
  $ cat said
  a.html
  b.html

Help and what is said of errors have none either.

  $ python3 terminal.py 'tl --help; tl select; tl select p none' | tr -d '\r' >shown
  $ grep -c "$(printf '\033\\[[0-9]')" shown
  0
  [1]
  $ grep -A1 'none:' shown
  \x1b[Ktl: none: No such file or directory (esc)

How far the work is, is said on standard error where there are more than a hundred files, behind what stands on the line, and goes before anything else is written.

  $ for number in $(seq 101); do printf '<p>x' >"$number.html"; done
  $ python3 terminal.py 'tl select -q i *.html none 2>&1 >said' | tr -d '\r' | tr '\033' '\n' | sed -n '1,7p;$p'
  (empty)
  7
  [Ktl: file 1 of 104
  8
  [K
  7
  [Ktl: file 2 of 104
  [Ktl: none: No such file or directory
  $ python3 terminal.py 'tl select -q i *.html 2>said; wc -c <said'
  0\x0d (esc)
  $ python3 terminal.py 'tl select -q i [1-9].html a.html b.html' | tr '\033' '\n' | grep -c file
  0
  [1]
  $ python3 terminal.py 'TERM=dumb tl select -q i *.html'
  [1]
  $ for files in 100 101; do python3 terminal.py "tl select -q i \$(seq -f %g.html $files)" | tr '\033' '\n' | grep 'file 1 of'; done
  [Ktl: file 1 of 101
  $ python3 terminal.py 'NO_COLOR=1 tl select -q i *.html 2>&1 >said' | tr '\033' '\n' | grep 'file 1 of'
  [Ktl: file 1 of 103
  $ python3 terminal.py 'tl set --dry-run p k v *.html >said'
  $ wc -l <said
  104
  $ tl select -q i *.html none
  tl: none: No such file or directory (err)
  [4]

It is said of a long page too.

  $ head -c 33554432 /dev/zero | tr '\0' x >long
  $ python3 terminal.py 'tl select -c p long' | tr -d '\r' | tr '\033' '\n'
  (empty)
  7
  [Ktl: a page of 33 MB
  8
  [K0
  $ head -c 33554431 long >shorter
  $ python3 terminal.py 'tl select -c p shorter' | tr -d '\r' | tr '\033' '\n'
  (empty)
  [K0

Fewer files show it too where they take more than a second.

  $ mkfifo slow
  $ { sleep 2; printf '<p>x'; } >slow & python3 terminal.py 'tl select -q i slow a.html b.html 2>&1 >said' | tr '\033' '\n'
  (empty)
  [K
  7
  [Ktl: file 2 of 3
  8
  [K
  7
  [Ktl: file 3 of 3
  8
  [K (no-eol)

What is said of a page takes its place, whatever that is.

  $ printf '\377' >bytes
  $ python3 terminal.py 'tl select --strict -q i bytes *.html 2>&1 >said' | tr -d '\r' | tr '\033' '\n' | sed -n '1,5p'
  (empty)
  7
  [Ktl: file 1 of 104
  8
  [Ktl: bytes: invalid UTF-8 at byte 0; --encoding names the encoding

A terminal gets no control characters of a page: `?` stands for one, and U+00BF for one from U+0080 to U+009F. What is no terminal gets them.

  $ printf '<p>a\033[31m\302\233c\010&#13;d' >control.html
  $ python3 terminal.py 'tl select -t p control.html 2>said' | od -An -c
     a   ?   [   3   1   m 302 277   c   ?   ?   d  \r  \n
  $ tl select -t p control.html | od -An -c
     a 033   [   3   1   m 302 233   c  \b  \r   d  \n
  $ printf 'a\r\n<p>\033</p>' >returns.html
  $ python3 terminal.py 'tl set p id x returns.html' | od -An -c
     a  \r  \r  \n   <   p       i   d   =   "   x   "   >   ?   <
     /   p   >
  $ printf '<p>\033</p>' | tl set p id x | od -An -c
     <   p       i   d   =   "   x   "   > 033   <   /   p   >
