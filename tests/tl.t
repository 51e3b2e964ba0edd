The program `tl`.

Each command, and each option of `select`.

  $ printf '<p id=a>x<b>y</b></p><p>z<img src=i.png srcset="j.png 2x"><a href="/q">' >page
  $ tl select p <page
  <p id="a">x<b>y</b></p>
  <p>z<img src="i.png" srcset="j.png 2x"><a href="/q"></a></p>
  $ tl select -a id p <page
  a
  $ tl select --attribute=id p <page
  a
  $ tl select -t p <page
  xy
  z
  $ tl select -H p <page
  x<b>y</b>
  z<img src="i.png" srcset="j.png 2x"><a href="/q"></a>
  $ tl select -n p <page
  3
  7
  $ tl select -c p <page
  2
  $ tl select -n0 p <page
  3\x007\x00 (esc) (no-eol)
  $ tl select -c0 p <page
  2\x00 (esc) (no-eol)
  $ tl select -H0 p <page
  x<b>y</b>\x00z<img src="i.png" srcset="j.png 2x"><a href="/q"></a>\x00 (esc) (no-eol)
  $ tl select -0 -a src '*' <page
  i.png\x00 (esc) (no-eol)
  $ tl select -0 b <page
  <b>y</b>\x00 (esc) (no-eol)
  $ tl select -t '#a' - <page
  xy
  $ tl select -1 p <page
  <p id="a">x<b>y</b></p>
  $ tl select --first -n p <page
  3
  $ tl select -1a href p <page
  [1]
  $ printf '<p id=x b a="y&" class=c>d<b>e\042</b></p>' | tl select --json 'p, b'
  [{"attributes":{"id":"x","b":"","a":"y&","class":"c"},"name":"p","node":3,"start":0,"end":25,"text":"de\""},{"attributes":{},"name":"b","node":5,"start":26,"end":29,"text":"e\""}]
  $ printf 'a<!--b--><i>' | tl select --json '*'
  [{"attributes":{},"name":"html","node":0,"text":"a"},{"attributes":{},"name":"head","node":1,"text":""},{"attributes":{},"name":"body","node":2,"text":"a"},{"attributes":{},"name":"i","node":5,"start":9,"end":12,"text":""}]
  $ printf 'a<p id=x b>t&amp;"<b>u</b><!--c--><br></p><ul><li>1<li>2</ul>' >below
  $ tl select --json --tree p below
  [{"attributes":{"id":"x","b":""},"name":"p","node":4,"start":1,"end":11,"children":[{"attributes":{},"name":null,"node":5,"start":11,"end":18,"text":"t&\""},{"attributes":{},"name":"b","node":6,"start":18,"end":21,"children":[{"attributes":{},"name":null,"node":7,"start":21,"end":22,"text":"u"}]},{"attributes":{},"name":null,"node":8,"start":26,"end":34,"comment":"c"},{"attributes":{},"name":"br","node":9,"start":34,"end":38,"children":[]}]}]
  $ tl select --json --tree br -0 below
  [{"attributes":{},"name":"br","node":9,"start":34,"end":38,"children":[]}]\x00 (esc) (no-eol)
  $ tl select --json --tree 'ul, li:last-child' below
  [{"attributes":{},"name":"ul","node":10,"start":42,"end":46,"children":[{"attributes":{},"name":"li","node":11,"start":46,"end":50,"children":[{"attributes":{},"name":null,"node":12,"start":50,"end":51,"text":"1"}]},{"attributes":{},"name":"li","node":13,"start":51,"end":55,"children":[{"attributes":{},"name":null,"node":14,"start":55,"end":56,"text":"2"}]}]},{"attributes":{},"name":"li","node":13,"start":51,"end":55,"children":[{"attributes":{},"name":null,"node":14,"start":55,"end":56,"text":"2"}]}]
  $ tl select -1 --json --tree li below
  [{"attributes":{},"name":"li","node":11,"start":46,"end":50,"children":[{"attributes":{},"name":null,"node":12,"start":50,"end":51,"text":"1"}]}]
  $ tl select -1 --json li below
  [{"attributes":{},"name":"li","node":11,"start":46,"end":50,"text":"1"}]
  $ tl select --json --tree i below
  []
  [1]
  $ tl select --json --tree -q li below
  $ python3 -c 'print("<b>" * 100000 + "x")' | tl select --json --tree -m1 b | python3 -c 'import sys; s = sys.stdin.read().strip(); print(len(s), s.count("children"), s[-9:])'
  8214916 100000 ]}]}]}]}]
  $ tl links <page
  i.png
  j.png
  /q
  $ tl links --null <page
  i.png\x00j.png\x00/q\x00 (esc) (no-eol)
  $ tl links page - <page
  page:i.png
  page:j.png
  page:/q
  -:i.png
  -:j.png
  -:/q
  $ tl text <page
  xyz (no-eol)
  $ printf '<title>T</title><style>p{}</style><div>a\n b<b>c</b><p> d<br>e</p></div><script>f</script>' | tl text -w
  a bc
  (empty)
  d
  e
  $ tl print <page
  <html><head></head><body><p id="a">x<b>y</b></p><p>z<img src="i.png" srcset="j.png 2x"><a href="/q"></a></p></body></html> (no-eol)
  $ printf '<p>a<br></p>\n' | tl outline
  html
    head
    body
      p
        "a"
        br
  $ printf '<p>a<br></p>\n' | tl outline -n
  0\x09html (esc)
  1\x09  head (esc)
  2\x09  body (esc)
  3\x09    p (esc)
  4\x09      "a" (esc)
  5\x09      br (esc)
  6\x09    "" (esc)
  $ printf '<p onclick=f()>x<script>y</script><a href="javascript:f()">z' | tl sanitize
  <p>x<a>z</a></p> (no-eol)
  $ printf '<p id=i title=t><i>a</i><b>c' | tl sanitize --tags p,i --keys title
  <p title="t"><i>a</i>c</p> (no-eol)
  $ printf '<p id=u-i><a href="ftp:x" id=i></a><a href="/y">' | tl sanitize --keys=id,href --link-keys=href --links=/ --prefix=u-
  <p id="u-i"><a id="u-i"></a><a href="/y"></a></p> (no-eol)
  $ tl print
  <html><head></head><body></body></html> (no-eol)
  $ tl outline
  html
    head
    body
  $ printf '<!doctype html><title>T</title><ul><li>a<li>b <i>c</i></ul><pre>d</pre>' | tl print --pretty
  <!DOCTYPE html>
  <html>
    <head>
      <title>T</title>
    </head>
    <body>
      <ul>
        <li>a</li>
        <li>b <i>c</i></li>
      </ul>
      <pre>d</pre>
    </body>
  </html>
  $ tl select --json -0 b <page
  [{"attributes":{},"name":"b","node":5,"start":9,"end":12,"text":"y"}]\x00 (esc) (no-eol)
  $ printf '<p =1>' | tl select -a '' p
  [1]
  $ printf '<p>a<b> b' | tl text --no-name
  a b (no-eol)
  $ printf '<select><option>A</option><option>B' | tl text -w
  A
  B

Where there is nothing, and no memory is wanted for it.

  $ printf '<p>' | tl links
  [1]
  $ tl links
  [1]
  $ tl text
  $ printf '<!-- x -->' | tl text -w
  $ printf '<a hidden>' | tl select -a hidden a
  (empty)
  $ printf '<a hidden>' | tl select -1a hidden a
  (empty)

Selectors are those of CSS.

  $ printf '<h2>a</h2><p class="x y">b</p><ul><li>1</li><li class=odd>2</li><li>3</li></ul><p>c<img src="d.png"><img src=e.gif></p>' >shelf
  $ tl select -t 'h2 ~ p' shelf
  b
  c
  $ tl select -t h2+p shelf
  b
  $ tl select -a src 'p > img[src$=".png"]' shelf
  d.png
  $ tl select -a src 'img:not([src$=".png" i])' shelf
  e.gif
  $ tl select -t '[class="x y"]' shelf
  b
  $ tl select -n 'p:nth-child(2), p:last-child' shelf
  5
  14
  $ tl select -c 'p:nth-of-type(odd)' shelf
  1
  $ tl select -n ':has(> li)' shelf
  7
  $ tl select -n 'li:empty, ul:empty' shelf
  [1]
  $ tl select -n 'P:IS(.x, .z)' shelf
  5

Of each page the first nodes alone; whether there are some; the files that have some.

  $ tl select -m 2 -t li shelf
  1
  2
  $ tl select -m2 -n 'li, img' shelf
  8
  10
  $ tl select --max-count=1 --json li shelf
  [{"attributes":{},"name":"li","node":8,"start":34,"end":38,"text":"1"}]
  $ tl select -m 9 -c li shelf
  3
  $ tl select -m 4294967295 -c li shelf
  3
  $ tl select -m1 -H p page
  x<b>y</b>
  $ tl select -m1 -a class 'p, li' shelf
  x y
  $ tl select -m 2 -c li shelf page
  shelf:2
  page:0
  $ tl select -m 0 li shelf
  [1]
  $ tl select -m 1 -a class li shelf
  [1]
  $ tl select -q li shelf
  $ tl select -q b shelf
  [1]
  $ tl select -q -a id li shelf
  [1]
  $ tl select -q -m 0 li shelf
  [1]
  $ python3 -c 'print("<p>" * 70001)' | tl select -c -m 70000 p
  70000
  $ tl select --quiet -a class li none shelf none
  tl: none: No such file or directory (err)
  $ tl select -q b page none
  $ tl select -q dd page none
  tl: none: No such file or directory (err)
  [4]
  $ tl select -l li page shelf
  shelf
  $ tl select --files-with-matches p page - shelf <page
  page
  -
  shelf
  $ tl select -l0 p page
  page\x00 (esc) (no-eol)
  $ tl select -l p <page
  -
  $ tl select -l --no-name p page shelf
  page
  shelf
  $ tl select -l -a id p page shelf
  page
  $ tl select -l dd page shelf
  [1]
  $ tl links -q page
  $ tl links -q shelf
  $ printf '<p>' | tl links -q
  [1]
  $ printf '<p>' | tl links -l - page
  page
  $ tl select -ql p page
  error: the argument '--quiet' cannot be used with '--files-with-matches' (err)
  ...
  [2]
  $ tl select -1 -m 2 p page
  error: the argument '--first' cannot be used with '--max-count <N>' (err)
  ...
  [2]
  $ tl select -m x p none
  tl: invalid number for --max-count: x (err)
  [2]
  $ tl select -m -1 p none
  error: a value is required for '--max-count <N>' but none was supplied (err)
  ...
  [2]
  $ tl select -m 4294967296 p none
  tl: invalid number for --max-count: 4294967296 (err)
  [2]

What is wrong with one is said once, before a file is read.

  $ tl select 'p:hover' none none
  tl: invalid selector: at byte 2: unknown pseudo-class: `hover` (a parsed page has no such state) (err)
    p:hover (err)
      ^ (err)
  [2]
  $ tl select --json 'img[src$=.png]' shelf page
  tl: invalid selector: at byte 9: expected a value, found `.` (put the value in quotes) (err)
    img[src$=.png] (err)
             ^ (err)
  [2]
  $ tl select '' <page
  tl: invalid selector: at byte 0: expected a selector (err)
  [2]
  $ tl select -c ,p <page
  tl: invalid selector: at byte 0: expected a selector, found `,` (err)
    ,p (err)
    ^ (err)
  [2]
  $ tl select -1 'li:not(p' shelf
  tl: invalid selector: at byte 6: opened here and never closed: `(` (err)
    li:not(p (err)
          ^ (err)
  [2]
  $ tl select ':nth-child(2147483648)' shelf
  tl: invalid selector: at byte 11: number above 2147483647: `2147483648` (err)
    :nth-child(2147483648) (err)
               ^ (err)
  [2]
  $ tl select -n '[@click]' shelf
  tl: invalid selector: at byte 1: expected a name, found `@` (put a value in quotes; in a name write `\` before it) (err)
    [@click] (err)
     ^ (err)
  [2]

Tables as CSV.

  $ printf '<table><caption>c</caption><tr><th>a<th>b, c</tr><tbody><tr><td>1<td colspan=2> d\n <b>e</b> &amp; f</tbody><tfoot><tr><td>"x"</tfoot></table>' >table
  $ tl table table
  a,"b, c",
  1,d e & f,d e & f
  """x""",,
  $ tl table -n 1 table
  a,"b, c",
  1,d e & f,d e & f
  """x""",,
  $ tl table --number=2 table
  [1]
  $ tl table --number 4294967295 table
  [1]
  $ printf '<table><tr><td>o<table><tr><td>i<td>j</table>p<td>q<tr></table><table><tr><td>z' | tl table
  o i j p,q
  ,
  $ printf '<table><tr><td>o<table><tr><td>i<td>j</table>p<td>q<tr></table><table><tr><td>z' | tl table -n 2
  i,j
  $ printf '<table><tr><td>o<table><tr><td>i<td>j</table>p<td>q<tr></table><table><tr><td>z' | tl table -n 3
  z
  $ printf '<table><tr><td>o<table><tr><td>i<td>j</table>p<td>q<tr></table><table><tr><td>z' | tl table -n 4
  [1]
  $ printf '<TABLE><TR><TD>a<br>b<TD><script>f()</script>c&nbsp;d' | tl table
  a b,c\xa0d (esc)
  $ printf '<table><tr><td>a</td><p><tr><td>b</table>' | tl table
  a
  b
  $ printf '<table><col><colgroup span=2><tbody><tr><td>a<td>b</table>' | tl table
  a,b,
  $ printf '<table><tr><td>a</tbody><colgroup span=2></table>' | tl table
  a
  $ printf '<table></table>' | tl table
  $ tl table <page
  [1]
  $ tl table --number 0 table
  tl: invalid number of a table: 0 (the first is 1) (err)
  [2]
  $ tl table --number x table
  tl: invalid number of a table: x (the first is 1) (err)
  [2]
  $ tl table table page table
  table,a,"b, c",
  table,1,d e & f,d e & f
  table,"""x""",,
  table,a,"b, c",
  table,1,d e & f,d e & f
  table,"""x""",,

The text inside of nodes.

  $ printf '<article><p>a<p>b <i>c</i></article><p>d<article>e</article><article></article>' >articles
  $ tl text --in article articles
  ab c
  e
  (empty)
  $ tl text -w --in article articles
  a
  (empty)
  b c
  e
  $ tl text -w --in p articles
  a
  b c
  d
  $ tl text -w --in nav articles
  [1]
  $ tl text --in nav articles
  [1]
  $ tl text --in nav: none
  tl: invalid selector: at byte 4: expected a name (err)
    nav: (err)
        ^ (err)
  [2]
  $ tl text --in '' articles
  tl: invalid selector: at byte 0: expected a selector (err)
  [2]
  $ tl text -w --in article articles page
  articles:a
  articles:
  articles:b c
  articles:e

Texts without what is in some elements.

  $ printf '<nav>n <b>m</b></nav><p>a <i>b</i> c<p id=x>d' >parts
  $ tl text -w --not nav parts
  a b c
  (empty)
  d
  $ tl text -w --not 'b, i' parts
  n
  (empty)
  a c
  (empty)
  d
  $ tl text -w --not 'nav ~ p' parts
  n m
  $ tl text -w --not table parts
  n m
  (empty)
  a b c
  (empty)
  d
  $ tl text -w --not body parts
  $ tl text -w --in p --not i parts
  a c
  d
  $ tl text -w --in 'b, #x' --not nav parts
  d
  $ tl text -w --in i --not i parts
  $ tl text -w --in table --not i parts
  [1]
  $ tl text -w --in p --not i parts articles
  parts:a c
  parts:d
  articles:a
  articles:b
  articles:d
  $ tl text -w --not nav: none
  tl: invalid selector: at byte 4: expected a name (err)
    nav: (err)
        ^ (err)
  [2]
  $ tl text --not nav parts
  error: the following required arguments were not provided: (err)
    --whitespace (err)
  ...
  [2]

Comments.

  $ printf '<!-- a --><!doctype html><p>x<!--b\nc--><b><!----></b><template><!--d--></template></p></html><!--e-->' >said
  $ tl text --comments said
   a\x20 (esc)
  b
  c
  (empty)
  d
  e
  $ tl text --comments --in 'p, b' said
  b
  c
  (empty)
  d
  (empty)
  $ tl text --comments --in html --no-name said parts
  b
  c
  (empty)
  d
  $ tl text --comments said parts
  said: a\x20 (esc)
  said:b
  said:c
  said:
  said:d
  said:e
  $ tl text --comments parts
  [1]
  $ tl text --comments --in i said
  [1]
  $ tl text --comments -w said
  error: the argument '--comments' cannot be used with '--whitespace' (err)
  ...
  [2]

The names of files are taken as they stand.

  $ printf '<p>a' >'x '
  $ tl print 'x '
  <html><head></head><body><p>a</p></body></html> (no-eol)
  $ tl print x ' x'
  tl: x: No such file or directory (err)
  tl:  x: No such file or directory (err)
  [4]

Nothing was found, or something is refused or not understood.

  $ tl select i <page
  [1]
  $ tl select -a href p <page
  [1]
  $ tl select -c i <page
  0
  [1]
  $ tl select --json i <page
  []
  [1]
  $ printf '\377' | tl print --strict
  tl: -: invalid UTF-8 at byte 0; --encoding names the encoding (err)
  [2]
  $ printf '\377' | tl select --strict p
  tl: -: invalid UTF-8 at byte 0; --encoding names the encoding (err)
  [2]
  $ tl 2>said; echo $?; head -1 said
  2
  Query, edit and sanitize HTML pages, however broken
  $ tl show
  error: unrecognized subcommand 'show' (err)
  ...
  [2]
  $ tl links -t
  error: unexpected argument '-t' found (err)
  ...
  [2]
  $ tl select -x p
  error: unexpected argument '-x' found (err)
  ...
  [2]
  $ tl select -a
  error: a value is required for '--attribute <NAME>' but none was supplied (err)
  ...
  [2]
  $ tl select -t
  error: the following required arguments were not provided: (err)
  ...
  [2]
  $ tl select -t -c p
  error: the argument '--text' cannot be used with '--count' (err)
  ...
  [2]
  $ tl select -1c p
  error: the argument '--first' cannot be used with '--count' (err)
  ...
  [2]
  $ tl select --tree p
  tl: --tree needs --json or --jsonl (err)
  [2]
  $ tl select -c --tree p
  error: the argument '--count' cannot be used with '--tree' (err)
  ...
  [2]
  $ tl select -t --json p
  error: the argument '--text' cannot be used with '--json' (err)
  ...
  [2]
  $ tl links -w
  error: unexpected argument '-w' found (err)
  ...
  [2]
  $ tl print "$(printf '\377')"
  tl: words: invalid UTF-8 (err)
  [2]
  $ tl print <.
  tl: -: Is a directory (err)
  [4]
  $ tl print - <&-
  tl: -: Bad file descriptor (err)
  [4]
  $ mkdir folder && tl print folder
  tl: folder: is a directory; folder/*.html names the pages in it (err)
  [4]
  $ tl print one "$(printf 'caf\351')"
  tl: words: invalid UTF-8 (err)
  [2]

Pages in files.

  $ printf '<p>one' >one
  $ printf '<p>two\n<b>' >two
  $ printf '<b>' >./-b
  $ printf '<p>in' | tl select p one -
  one:<p>one</p>
  -:<p>in</p>
  $ tl select p one two
  one:<p>one</p>
  two:<p>two
  two:<b></b></p>
  $ tl print one two
  one:<html><head></head><body><p>one</p></body></html>
  two:<html><head></head><body><p>two
  two:<b></b></p></body></html>
  $ tl select -t p one
  one
  $ tl select --no-name -t p one two
  one
  two
  (empty)
  $ tl select -c p one two
  one:1
  two:1
  $ tl select -c p one two one two
  one:1
  two:1
  one:1
  two:1
  $ tl select --no-name -c p one one one one one one one one one one one one one one one one one
  1
  1
  1
  1
  1
  1
  1
  1
  1
  1
  1
  1
  1
  1
  1
  1
  1
  $ tl select i one two
  [1]
  $ tl select --json i one two
  []
  []
  [1]
  $ tl select --jsonl i one two
  [1]
  $ tl text -w one
  one
  $ tl select --no-name -t0 p one two
  one\x00two (esc)
  \x00 (esc) (no-eol)
  $ tl select --jsonl p one two
  {"file":"one","attributes":{},"name":"p","node":3,"start":0,"end":3,"text":"one"}
  {"file":"two","attributes":{},"name":"p","node":3,"start":0,"end":3,"text":"two\n"}
  $ tl select --jsonl --tree p one two
  {"file":"one","attributes":{},"name":"p","node":3,"start":0,"end":3,"children":[{"attributes":{},"name":null,"node":4,"start":3,"end":6,"text":"one"}]}
  {"file":"two","attributes":{},"name":"p","node":3,"start":0,"end":3,"children":[{"attributes":{},"name":null,"node":4,"start":3,"end":7,"text":"two\n"},{"attributes":{},"name":"b","node":5,"start":7,"end":10,"children":[]}]}
  $ tl select --json --tree b one two
  []
  [{"attributes":{},"name":"b","node":5,"start":7,"end":10,"children":[]}]
  $ tl select --jsonl --with-name b - <two
  {"file":"-","attributes":{},"name":"b","node":5,"start":7,"end":10,"text":""}
  $ tl select --json --with-name b two
  [{"attributes":{},"name":"b","node":5,"start":7,"end":10,"text":""}]
  $ tl select --with-name -t p one; tl links --with-name - <one; tl text --with-name one
  one:one
  one:one
  $ tl select --with-name --no-name p one 2>&1 | head -1
  error: the argument '--with-name' cannot be used with '--no-name'
  $ tl select --json --jsonl p one 2>&1 | head -1
  error: the argument '--json' cannot be used with '--jsonl'
  $ tl select --json --tree -l b one two
  two
  $ tl select --json p one two
  [{"attributes":{},"name":"p","node":3,"start":0,"end":3,"text":"one"}]
  [{"attributes":{},"name":"p","node":3,"start":0,"end":3,"text":"two\n"}]
  $ tl select --jsonl -m1 'p, b' one two -
  {"file":"one","attributes":{},"name":"p","node":3,"start":0,"end":3,"text":"one"}
  {"file":"two","attributes":{},"name":"p","node":3,"start":0,"end":3,"text":"two\n"}
  $ tl select --jsonl -0 p one two
  {"file":"one","attributes":{},"name":"p","node":3,"start":0,"end":3,"text":"one"}
  {"file":"two","attributes":{},"name":"p","node":3,"start":0,"end":3,"text":"two\n"}
  $ cp one 'a "b"' && tl select --jsonl p one 'a "b"' && rm 'a "b"'
  {"file":"one","attributes":{},"name":"p","node":3,"start":0,"end":3,"text":"one"}
  {"file":"a \"b\"","attributes":{},"name":"p","node":3,"start":0,"end":3,"text":"one"}
  $ tl select --jsonl b one two
  {"file":"two","attributes":{},"name":"b","node":5,"start":7,"end":10,"text":""}
  $ tl select -t0 p one two
  one:one\x00two:two (esc)
  \x00 (esc) (no-eol)
  $ tl select b one two
  two:<b></b>
  $ tl print -- -b
  <html><head></head><body><b></b></body></html> (no-eol)
  $ tl select p one none two
  one:<p>one</p>
  two:<p>two
  two:<b></b></p>
  tl: none: No such file or directory (err)
  [4]
  $ tl print none
  tl: none: No such file or directory (err)
  [4]
  $ tl print ''
  tl: : No such file or directory (err)
  [4]

Pages made safe.

  $ printf '<p onclick="x()">a</p>' >a.html
  $ printf '<b>b<script>c</script>' >b.html
  $ printf '\377' >bytes.html
  $ printf '<i>d</i>' >./-d.html
  $ printf '<i>e</i>' >./--
  $ : >empty.html
  $ printf '<p onclick="x()">a<script>b</script><b>c' | tl sanitize
  <p>a<b>c</b></p> (no-eol)
  $ tl sanitize
  $ printf '<i>x</i>' | tl sanitise
  <i>x</i> (no-eol)
  $ printf '<i>x</i>' | tl sanitize -
  <i>x</i> (no-eol)
  $ tl sanitize --no-name a.html b.html
  <p>a</p><b>b</b> (no-eol)
  $ tl sanitize a.html b.html
  a.html:<p>a</p>
  b.html:<b>b</b>
  $ printf '<i>x</i>' | tl sanitize --no-name a.html - b.html
  <p>a</p><i>x</i><b>b</b> (no-eol)
  $ tl sanitize -- -d.html
  <i>d</i> (no-eol)
  $ tl sanitize --no-name a.html -- -d.html
  <p>a</p><i>d</i> (no-eol)
  $ tl sanitize -- --
  <i>e</i> (no-eol)
  $ tl sanitize empty.html
  $ tl sanitize empty.html a.html
  a.html:<p>a</p>

Their lists.

  $ printf '<p><b>a</b><i title=x class=user-y>c</i></p>' | tl sanitize --tags b,i --keys title
  <b>a</b><i title="x">c</i> (no-eol)
  $ printf '<p><b>a</b></p>' | tl sanitize --tags=b
  <b>a</b> (no-eol)
  $ printf '<p><b>a</b></p>' | tl sanitize --tags ''
  a (no-eol)
  $ printf '<p><b>a</b></p>' | tl sanitize --tags=
  a (no-eol)
  $ printf '<p><b>a</b></p>' | tl sanitize --tags ,p,,b,
  <p><b>a</b></p> (no-eol)
  $ printf '<a href="/x">a</a><a href="ftp://x">b</a>' | tl sanitize --links ftp:
  <a>a</a><a href="ftp://x">b</a> (no-eol)
  $ printf '<a href="/x=y">a</a><a href="/z">b</a>' | tl sanitize --links=/x=
  <a href="/x=y">a</a><a>b</a> (no-eol)
  $ printf '<a href="//e">a</a><a href="/x">b</a><a href>c</a>' | tl sanitize --links //,/x
  <a href="//e">a</a><a href="/x">b</a><a>c</a> (no-eol)
  $ printf '<a href="//e">a</a><a href="/x" title="<b>">b</a>' | tl sanitize
  <a>a</a><a href="/x" title="&lt;b&gt;">b</a> (no-eol)
  $ printf '<a data-x="javascript:x">a</a><a data-x="/y">b</a>' | tl sanitize --keys data-x --link-keys data-x
  <a>a</a><a data-x="/y">b</a> (no-eol)
  $ printf '<p id=x>a</p><p id=site-x>b</p>' | tl sanitize --prefix site-
  <p id="site-x">a</p><p id="site-x">b</p> (no-eol)
  $ printf '<code class="hljs language-c++ x">a</code><p class=x>b</p>' | tl sanitize
  <code class="language-c++">a</code><p>b</p> (no-eol)
  $ printf '<code class="hljs language-c++ x">a</code><p class=x>b</p>' | tl sanitize --classes x,hl*
  <code class="hljs x">a</code><p class="x">b</p> (no-eol)
  $ tl sanitize a.html --tags b
  a (no-eol)
  $ printf '<p title=t>x' | tl sanitize --tags p
  <p title="t">x</p> (no-eol)
  $ tl sanitize --tags b,i --policy
  --tags b,i
  --keys alt,cite,class,datetime,dir,height,href,id,lang,src,start,title,width
  --link-keys cite,href,src
  --links https://,http://,mailto:,/,#
  --classes language-*
  --prefix user-
  $ tl sanitize --policy --tags b,i
  --tags b,i
  --keys alt,cite,class,datetime,dir,height,href,id,lang,src,start,title,width
  --link-keys cite,href,src
  --links https://,http://,mailto:,/,#
  --classes language-*
  --prefix user-
  $ tl sanitize --policy a.html --tags b,i none
  --tags b,i
  --keys alt,cite,class,datetime,dir,height,href,id,lang,src,start,title,width
  --link-keys cite,href,src
  --links https://,http://,mailto:,/,#
  --classes language-*
  --prefix user-
  $ tl sanitize --policy --tags ''
  --tags
  --keys alt,cite,class,datetime,dir,height,href,id,lang,src,start,title,width
  --link-keys cite,href,src
  --links https://,http://,mailto:,/,#
  --classes language-*
  --prefix user-
  $ tl sanitize --policy --tags script
  tl: a policy can't allow the element `script`: its content isn't HTML markup (err)
  [2]
  $ tl sanitize --policy --tags p --keys title --link-keys cite --links /x --classes +hljs --prefix z-
  --tags p
  --keys title
  --link-keys cite
  --links /x
  --classes language-*,hljs
  --prefix z-
  $ tl sanitize --policy --documents
  --tags article,aside,caption,col,colgroup,footer,header,main,nav,section,table,tbody,td,tfoot,th,thead,tr,a,abbr,b,bdi,bdo,blockquote,br,cite,code,dd,del,details,dfn,div,dl,dt,em,figcaption,figure,h1,h2,h3,h4,h5,h6,hr,i,img,ins,kbd,li,mark,ol,p,pre,q,s,samp,small,span,strong,sub,summary,sup,time,u,ul,var,wbr
  --keys alt,cite,class,colspan,datetime,dir,height,href,id,lang,rowspan,scope,span,src,start,title,width
  --link-keys cite,href,src
  --links https://,http://,mailto:,/,#
  --relative-links
  --classes language-*
  --prefix user-
  $ tl sanitize --policy --comments --tags +img,-b,i --links=-http://,tel:,mailto: --link-keys +src
  --tags a,blockquote,br,code,del,em,i,li,ol,p,pre,q,s,strong,sub,sup,u,ul,img
  --keys cite,dir,href,lang,title
  --link-keys cite,href,src
  --links https://,tel:,mailto:
  --classes
  --prefix user-
  $ tl sanitize --policy --documents --tags p --keys title --classes=-language-*,a --prefix z-
  --tags p
  --keys title
  --link-keys cite,href,src
  --links https://,http://,mailto:,/,#
  --relative-links
  --classes a
  --prefix z-

Policies for other pages, and links beside the page.

  $ printf '<h1>a</h1><p>b<img src="https://e/x">' | tl sanitize --comments
  a<p>b</p> (no-eol)
  $ printf '<table><tr><td colspan=2>a' | tl sanitize --documents
  <table><tbody><tr><td colspan="2">a</td></tr></tbody></table> (no-eol)
  $ printf '<img src=x.png><img src=x:y>' | tl sanitize --documents
  <img src="x.png"><img> (no-eol)
  $ printf '<img src=x.png><img src=x:y>' | tl sanitize --relative-links
  <img src="x.png"><img> (no-eol)
  $ printf '<img src=x.png>' | tl sanitize
  <img> (no-eol)
  $ printf '<b>a</b><i>b</i>' | tl sanitize --comments --tags i
  a<i>b</i> (no-eol)
  $ tl sanitize --comments --policy
  --tags a,b,blockquote,br,code,del,em,i,li,ol,p,pre,q,s,strong,sub,sup,u,ul
  --keys cite,dir,href,lang,title
  --link-keys cite,href
  --links https://,http://
  --classes
  --prefix user-
  $ tl sanitize --relative-links --tags b --policy
  --tags b
  --keys alt,cite,class,datetime,dir,height,href,id,lang,src,start,title,width
  --link-keys cite,href,src
  --links https://,http://,mailto:,/,#
  --relative-links
  --classes language-*
  --prefix user-
  $ printf '<a rel=x href="/y">a</a><a href="z">b</a><q cite="/z">c</q>' | tl sanitize --nofollow-links
  <a rel="nofollow noopener" href="/y">a</a><a>b</a><q cite="/z">c</q> (no-eol)
  $ tl sanitize --nofollow-links --comments --tags a --policy
  --tags a
  --keys cite,dir,href,lang,title,rel
  --link-keys cite,href
  --links https://,http://
  --nofollow-links
  --classes
  --prefix user-
  $ tl sanitize --nofollow-links --keys rel,href --link-keys href,rel
  tl: a policy can't mark links with the attribute `rel`: it isn't allowed, or is a link attribute (err)
  [2]

Words that no policy may list: the first one is named, and no page is made safe.

  $ tl sanitize --tags b,script,form a.html
  tl: a policy can't allow the element `script`: its content isn't HTML markup (err)
  [2]
  $ tl sanitize --tags B
  tl: invalid tag name `B`: expected a letter a-z, then letters and digits (err)
  [2]
  $ tl sanitize --tags form
  tl: a policy can't allow the element `form`: it affects the page around it, or loads other content (err)
  [2]
  $ tl sanitize --keys title,onclick
  tl: a policy can't allow the attribute `onclick`: its value is a script (err)
  [2]
  $ tl sanitize --keys style
  tl: a policy can't allow the attribute `style`: its value isn't a name, text or URL (err)
  [2]
  $ tl sanitize --keys attributionsrc
  tl: a policy can't allow the attribute `attributionsrc`: its value isn't a name, text or URL (err)
  [2]
  $ tl sanitize --keys poster
  tl: a policy can't allow the attribute `poster`: its value is a URL, so it has to be a link attribute too (err)
  [2]
  $ tl sanitize --links javascript:
  tl: a policy can't allow links that begin with `javascript:`: such URLs are programs or documents (err)
  [2]
  $ tl sanitize --links http
  tl: invalid link prefix `http`: expected a scheme with its `:`, or `/`, `#`, `?` or `.` first (err)
  [2]
  $ tl sanitize --classes 'hljs,language-*,*-x'
  tl: invalid class pattern `*-x`: expected no spaces and no `"`, and `*` only at the end (err)
  [2]
  $ tl sanitize --prefix 1
  tl: invalid prefix `1`: expected a letter a-z, then letters and `-` (err)
  [2]
  $ tl sanitize --prefix=
  tl: invalid prefix ``: expected a letter a-z, then letters and `-` (err)
  [2]
  $ tl sanitize --prefix 1 --tags script
  tl: a policy can't allow the element `script`: its content isn't HTML markup (err)
  [2]
  $ tl sanitize --colour
  error: unexpected argument '--colour' found (err)
  ...
  [2]
  $ tl sanitize -x
  error: unexpected argument '-x' found (err)
  ...
  [2]
  $ tl sanitize --tags
  error: a value is required for '--tags <WORDS>' but none was supplied (err)
  ...
  [2]
  $ tl sanitize --tags --keys
  error: a value is required for '--tags <WORDS>' but none was supplied (err)
  ...
  [2]
  $ tl sanitize --tags --
  error: a value is required for '--tags <WORDS>' but none was supplied (err)
  ...
  [2]
  $ tl sanitize --tags i --tags b
  error: the argument '--tags <WORDS>' cannot be used multiple times (err)
  ...
  [2]
  $ tl sanitize --tags=i --tags=b
  error: the argument '--tags <WORDS>' cannot be used multiple times (err)
  ...
  [2]
  $ tl sanitize "$(printf '\377')"
  tl: words: invalid UTF-8 (err)
  [2]

Pages that can't be had are passed over, and the greatest status counts.

  $ printf '\377' | tl sanitize --strict
  tl: -: invalid UTF-8 at byte 0; --encoding names the encoding (err)
  [2]
  $ tl sanitize --strict --no-name a.html bytes.html b.html
  <p>a</p><b>b</b> (no-eol)
  tl: bytes.html: invalid UTF-8 at byte 0; --encoding names the encoding (err)
  [2]
  $ tl sanitize --no-name a.html none b.html
  <p>a</p><b>b</b> (no-eol)
  tl: none: No such file or directory (err)
  [4]
  $ tl sanitize --strict none bytes.html
  tl: none: No such file or directory (err)
  tl: bytes.html: invalid UTF-8 at byte 0; --encoding names the encoding (err)
  [4]
  $ tl sanitize --strict bytes.html none
  tl: bytes.html: invalid UTF-8 at byte 0; --encoding names the encoding (err)
  tl: none: No such file or directory (err)
  [4]
  $ printf '<i>x</i>' | tl sanitize --no-name none -
  <i>x</i> (no-eol)
  tl: none: No such file or directory (err)
  [4]
  $ tl sanitize .
  tl: .: is a directory; ./*.html names the pages in it (err)
  [4]

Help names each command and each option, and words the lists.

  $ tl --help >help && sed -n 's/^  \([a-z]*\)  .*/\1/p' help
  select
  links
  text
  table
  print
  outline
  set
  unset
  rename
  remove
  unwrap
  replace
  fill
  prepend
  append
  before
  after
  sanitize
  help
  $ for command in select links text table print outline set unset rename remove unwrap replace fill prepend append before after sanitize; do tl $command --help >help && grep '^Usage: ' help; done
  Usage: tl select [OPTIONS] <SELECTOR> [FILE]...
  Usage: tl links [OPTIONS] [FILE]...
  Usage: tl text [OPTIONS] [FILE]...
  Usage: tl table [OPTIONS] [FILE]...
  Usage: tl print [OPTIONS] [FILE]...
  Usage: tl outline [OPTIONS] [FILE]...
  Usage: tl set [OPTIONS] <SELECTOR> <ATTRIBUTE> [VALUE] [FILE]...
  Usage: tl unset [OPTIONS] <SELECTOR> <ATTRIBUTE> [FILE]...
  Usage: tl rename [OPTIONS] <SELECTOR> <NAME> [FILE]...
  Usage: tl remove [OPTIONS] [SELECTOR] [FILE]...
  Usage: tl unwrap [OPTIONS] <SELECTOR> [FILE]...
  Usage: tl replace [OPTIONS] <SELECTOR> <TEXT> [FILE]...
  Usage: tl fill [OPTIONS] <SELECTOR> <TEXT> [FILE]...
  Usage: tl prepend [OPTIONS] <SELECTOR> <TEXT> [FILE]...
  Usage: tl append [OPTIONS] <SELECTOR> <TEXT> [FILE]...
  Usage: tl before [OPTIONS] <SELECTOR> <TEXT> [FILE]...
  Usage: tl after [OPTIONS] <SELECTOR> <TEXT> [FILE]...
  Usage: tl sanitize [OPTIONS] [FILE]...
  $ tl select --help >help && grep -oE -e '--[a-z-]+' help | sort -u
  --attribute
  --count
  --csv
  --encoding
  --files-with-matches
  --first
  --help
  --inside
  --json
  --jsonl
  --max-count
  --no-name
  --null
  --number
  --quiet
  --source
  --strict
  --text
  --tree
  --tsv
  --where
  --with-name
  $ tl sanitize --help >help && grep -oE -e '--[a-z-]+' help | sort -u
  --classes
  --comments
  --documents
  --encoding
  --help
  --keys
  --link-keys
  --links
  --no-name
  --nofollow-links
  --policy
  --prefix
  --relative-links
  --removed
  --strict
  --tags
  --with-name
  $ for command in set unset rename remove unwrap replace fill prepend append before after; do tl $command --help; done | grep -oE -e '--[a-z-]+' | sort -u
  --add-word
  --backup
  --base
  --comments
  --diff
  --drop-query
  --dry-run
  --encoding
  --from
  --from-text
  --help
  --html
  --in-place
  --literal
  --ok
  --prefix
  --remove-word
  --replace
  --skip
  --strict
  --suffix
  --verbose
  $ grep -o '^WORDS are separated by commas' help
  WORDS are separated by commas
  $ tl --help | grep -o '^Exit status: 0: done'
  Exit status: 0: done
  $ tl select --help | grep -o '^SELECTOR is one of CSS'
  SELECTOR is one of CSS
  $ tl --help | grep -A3 '^Examples:'
  Examples:
    tl select -a href 'nav a' index.html    the links of the navigation
    tl text -w index.html                   the text, as a browser shows it
    tl table index.html                     the first table, as CSV
  $ for command in select links text table print outline set unset rename remove unwrap replace fill prepend append before after sanitize; do tl $command --help | grep -A1 '^Example:' | tail -1; done
    tl select -l 'img:not([alt])' *.html    files with images without alt text
    tl links index.html | grep '^http:'     links that aren't encrypted
    tl text -w --in article index.html      the text of an article, block by block
    tl table --number 2 index.html          the second table of a page
    tl print --pretty index.html            the page, an element on a line
    tl outline index.html                   what a page is made of
    tl set -i img loading lazy *.html       lazy-load images
    tl unset -i '[style]' style *.html      remove inline styles
    tl rename -i center div *.html          replace the obsolete <center>
    tl remove -i script *.html              remove all scripts
    tl unwrap -i font *.html                remove <font>, and keep what is inside
    tl replace --html 'br + br' '<hr>' a.html    a rule instead of a second break
    tl fill -i title 'News & more' *.html   set a new title
    tl prepend --html -i head '<meta charset=utf-8>' *.html   declare UTF-8
    tl append --html -i footer '<hr>' *.html     a rule at the end of each footer
    tl before --html h1 '<p>Draft</p>' a.html    a note before the heading
    tl after 'a[href^=http]' ' (elsewhere)' a.html    mark links to other sites
    tl sanitize --comments comment.html     a comment, made safe to show
  $ for command in select links text table print outline set unset rename remove unwrap replace fill prepend append before after sanitize; do tl $command --help; done | awk 'length > 80'
  $ test "$(tl --version)" = "tl $VERSION"

Where nothing can be written, that is said once, and no more is read.

  $ tl --help >/dev/full
  tl: standard output: No space left on device (err)
  [4]
  $ tl --version >/dev/full
  tl: standard output: No space left on device (err)
  [4]
  $ tl sanitize --policy >/dev/full
  tl: standard output: No space left on device (err)
  [4]
  $ printf '<p>' | tl print >/dev/full
  tl: standard output: No space left on device (err)
  [4]
  $ printf '<p>' | { tl select p one - two >/dev/full; cat; }
  <p> (no-eol)
  tl: standard output: No space left on device (err)
  $ tl sanitize a.html none >/dev/full
  tl: standard output: No space left on device (err)
  [4]
  $ tl print one two >&-
  tl: standard output: Bad file descriptor (err)
  [4]

Where what is written is read no more, nothing is said, and the status is that of a closed pipe.

  $ head -c 99000 /dev/zero | tr '\0' a >pipe
  $ (tl text pipe; echo $? >status) | head -c 3
  aaa (no-eol)
  $ cat status
  141
  $ (tl text pipe none pipe; echo $? >status) | head -c 6
  pipe:a (no-eol)
  $ cat status
  141
  $ (sleep 1; tl --help; echo $? >status) | :
  $ cat status
  141

A page longer than the memory, and pages that are long or deep.

  $ head -c 64000000 /dev/zero | tr '\0' a >long
  $ (ulimit -v 40000 && exec tl print) <long
  tl: -: out of memory (err)
  [3]
  $ (ulimit -v 40000 && exec tl sanitize long)
  tl: long: out of memory (err)
  [3]
  $ head -c 2000000 long >large
  $ tl sanitize large | cmp - large
  $ (printf '<p>' && head -c 5000000 long && printf '</p>') >larger
  $ (head -c 5000000 long && echo) >text
  $ tl select -t p larger | cmp - text
  $ tl text -w larger | cmp - text
  $ (head -c 4000 /dev/zero | sed 's/\x00/<b>/g' && printf x) >deep
  $ tl text deep
  x (no-eol)
  $ tl text -w deep
  x
  $ tl select -t1 b deep
  x
  $ tl select -c b deep
  4000

What the page leaves out or writes otherwise stands in its print.

  $ printf '<a href=/x>y</a>' | tl print
  <html><head></head><body><a href="/x">y</a></body></html> (no-eol)
  $ printf '<p>a<br/><p  k=\047v\047>b' | tl print
  <html><head></head><body><p>a<br></p><p k="v">b</p></body></html> (no-eol)

A tag that browsers put in is found.

  $ printf '<table><tr><td>a</table>' >rows
  $ tl select -t 'TBODY > tr' rows
  a
  $ tl select -q 'table > tbody' rows
  $ tl select .tbody rows
  [1]
  $ tl text --in 'body' rows
  a
  $ printf '<table><tbody><tr><td>b' | tl select -t 'tbody > tr' rows -
  rows:a
  -:b
