The callers of `crates/uses`.

  $ printf '<ul><li><a href="/x">y</a><a>z</a></ul><b href="/q&quot;">' | uses values 'li a, b' href
  /x
  /q"
  $ printf '<a href="/x"><b href=z><a><A HREF=q><a href>' | uses values a href
  /x
  q
  (empty)
  $ printf '<p>' | uses values p, href
  Error: at byte 2: expected a selector (err)
  [1]
  $ printf '\377<p href=\377>' | uses values p href
  \xff (esc)
  $ uses values p href </dev/null
  $ printf '<p>a<P CLASS=k>b &amp; c<table><td>d' | uses elements 'p.k, tr'
  <p class="k">b &amp; c<table><tbody><tr><td>d</td></tr></tbody></table></p>
  <tr><td>d</td></tr>
  $ printf '<p title="Dear {name}">Dear <b>{name}</b>, {x} <!-- {name} --></p>' | uses fill 'name=A"<&' name=B
  <p title="Dear A&quot;&lt;&amp;">Dear <b>A&quot;&lt;&amp;</b>, {x} <!-- {name} --></p> (no-eol)
  $ printf '<p>{a}</p>' | uses fill a=b=c
  <p>b=c</p> (no-eol)
  $ printf '<p>{a}{b}{c</p>' | uses fill a=1 c=2
  <p>1{b}{c</p> (no-eol)
  $ printf '<p>{a}</p>' | uses fill a
  Error: a field is NAME=VALUE (err)
  [1]
  $ printf '\377' | uses fill a=1
  Error: invalid UTF-8 at byte 0 (err)
  [1]
  $ printf '<p>' | uses value p href
  Error: usage: uses values SELECTOR KEY | elements SELECTOR | links URL | titles | text | fill NAME=VALUE .. < page (err)
  [1]
  $ printf '<base href=/d/><A HREF=x?a=1&amp;b>y</A><img src=a.png srcset="b.png 1x, c.png 2x,d"><form action="#"><video poster=p>' | uses links http://e.org/p
  http://e.org/d/
  http://e.org/d/x?a=1&b
  http://e.org/d/a.png
  http://e.org/d/b.png
  http://e.org/d/c.png
  http://e.org/d/d
  http://e.org/d/#
  http://e.org/d/p
  $ printf '<a href="http://[">x</a><a href=//q.org/>y</a><script>"<a href=z>"</script><img srcset=" ,a, (x,y)b (1,2) 3x,, c,d e,">' | uses links http://e.org/p
  http://[
  http://q.org/
  http://e.org/a
  http://e.org/(x,y)b
  http://e.org/c,d
  $ printf '<base><base href="/q/"><base href=/r/><a href=x>' | uses links http://e.org/p
  http://e.org/q/
  http://e.org/r/
  http://e.org/q/x
  $ printf '<base href=data:a><a href=x>' | uses links http://e.org/p
  data:a
  http://e.org/x
  $ uses links /p < /dev/null
  Error: relative URL without a base (err)
  [1]
  $ printf '<!doctype html PUBLIC "x"><TITLE>A &amp;\n B</TITLE><h1> C <b>d</b></h1><p>e<h2></h2><h2>f\\<script>"<h3>g</h3>"</script>' | uses titles
  A & B
  C d
  (empty)
  f\\
  $ printf '<!doctype html PUBLIC "x"><TITLE>A &lt;</TITLE><p>b<p>c&amp;<script>"<p>"</script><table><td>d<td>e' | uses text
  b
  (empty)
  c&
  (empty)
  d\x09e (esc) (no-eol)
  $ uses text <.
  Error: Is a directory (os error 21) (err)
  [1]
  $ printf '<p>x' | uses text >/dev/full
  Error: No space left on device (os error 28) (err)
  [1]
