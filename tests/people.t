Pages as people write them: what they ask of one, and forms of today's pages.

A page with names in any case, bare values, end tags that are left out, `<` in texts and scripts, and references.

  $ cat >blog.html <<'END'
  > <!DOCTYPE html>
  > <html lang=en>
  > <head>
  > <meta charset="utf-8">
  > <title>Bread &amp; butter &ndash; Anna&#39;s blog</title>
  > <meta property="og:title" content="Bread &amp; butter">
  > <meta property="og:image" content="https://cdn.example.org/a.jpg?w=1200&amp;h=630">
  > <meta property=og:type content=article>
  > <meta name="viewport" content="width=device-width, initial-scale=1">
  > <link rel="stylesheet" href="/css/site.css">
  > <link rel="canonical" href="https://anna.example/bread">
  > <script type="application/ld+json">
  > {"@context":"https://schema.org","@type":"Article","headline":"Bread & butter","url":"https://anna.example/bread"}
  > </script>
  > <script>
  >   if (window.innerWidth < 600 && a<b) { document.write('<img src="/small.png">'); }
  > </script>
  > <style>p > a { color: red } /* <b> */</style>
  > </head>
  > <body class="post single">
  > <!-- navigation -->
  > <nav><ul>
  > <li><a href="/">Home</a>
  > <li><a href=/about>About</a>
  > <li><a href="https://other.example/x" class="external link" target=_blank>Elsewhere</a>
  > <li><a href='http://third.example/?a=1&amp;b=2'>Third</a>
  > </ul></nav>
  > <article id="post-17">
  > <h2 class="entry-title"><a href="/bread" rel="bookmark">Bread &amp; butter</a></h2>
  > <p>First paragraph with <em>emphasis</em> and 3 < 4.
  > <p>Second paragraph<br>with a break and an <a href="mailto:a@b.c">address</a>.
  > <img src="/img/loaf.png" alt="A loaf"><IMG SRC="/img/KNIFE.PNG">
  > <img src=img/crumb.jpg width=100 height=50>
  > </article>
  > <article id="post-16">
  > <h2 class="entry-title"><a href="/cheese">Cheese</a></h2>
  > <P CLASS="intro">Upper case</P>
  > <img data-src="/lazy.jpg" src="data:image/gif;base64,R0lGODlhAQABAAAAACw=" alt="">
  > </article>
  > <table id="prices">
  > <thead><tr><th>Item<th>Price, EUR</thead>
  > <tbody>
  > <tr><td>Rye</td><td>3.20</td></tr>
  > <tr><td>White "soft"</td><td>2,10</td></tr>
  > <tr><td>Spelt &amp; oat<td>4.50
  > </tbody></table>
  > <form action="/search" method=get><input name=q value="a b"><select name=s><option value=1 selected>One<option value=2>Two</select></form>
  > <a href="/x" onclick="return f('a>b')">tricky</a>
  > <footer>&copy; 2024 Anna</footer>
  > </body></html>
  > END

Its table; the links; the titles of articles; what a preview takes of it.

  $ tl select -t 'tr td' blog.html | paste -d, - -
  Rye,3.20
  White "soft",2,10
  Spelt & oat,4.50
  ,
  $ tl select --json 'tr' blog.html | grep -o '"text":"[^}]*'
  "text":"ItemPrice, EUR"
  "text":"Rye3.20"
  "text":"White \"soft\"2,10"
  "text":"Spelt & oat4.50\n"
  $ tl links blog.html
  /css/site.css
  https://anna.example/bread
  /
  /about
  https://other.example/x
  http://third.example/?a=1&b=2
  /bread
  mailto:a@b.c
  /img/loaf.png
  /img/KNIFE.PNG
  img/crumb.jpg
  /cheese
  data:image/gif;base64,R0lGODlhAQABAAAAACw=
  /search
  /x
  $ tl select -a href a blog.html
  /
  /about
  https://other.example/x
  http://third.example/?a=1&b=2
  /bread
  mailto:a@b.c
  /cheese
  /x
  $ tl select -t 'h2.entry-title a' blog.html
  Bread & butter
  Cheese
  $ tl select -1t title blog.html
  Bread & butter – Anna's blog
  $ tl select -a content 'meta[property^="og:"]' blog.html
  Bread & butter
  https://cdn.example.org/a.jpg?w=1200&h=630
  article
  $ tl select -a content 'meta[name=viewport]' blog.html
  width=device-width, initial-scale=1

Pictures, and how many have an `alt`; data of JSON, also with markup in it; the text of the page.

  $ tl select -a src img blog.html
  /img/loaf.png
  /img/KNIFE.PNG
  img/crumb.jpg
  data:image/gif;base64,R0lGODlhAQABAAAAACw=
  $ tl select -c img blog.html
  4
  $ tl select -c 'img[alt]' blog.html
  2
  $ tl select -t 'script[type="application/ld+json"]' blog.html
  (empty)
  {"@context":"https://schema.org","@type":"Article","headline":"Bread & butter","url":"https://anna.example/bread"}
  (empty)
  $ printf '%s' '<script type="application/ld+json">{"description":"<p>Hi <b>x</b></p> and 1 < 2","t":"a<br/>b"}</script>' | tl select -t script
  {"description":"<p>Hi <b>x</b></p> and 1 < 2","t":"a<br/>b"}
  $ tl text -w blog.html
  Home
  About
  Elsewhere
  Third
  Bread & butter
  (empty)
  First paragraph with emphasis and 3 < 4.
  (empty)
  Second paragraph
  with a break and an address.
  (empty)
  Cheese
  (empty)
  Upper case
  (empty)
  Item\x09Price, EUR (esc)
  Rye\x093.20 (esc)
  White "soft"\x092,10 (esc)
  Spelt & oat\x094.50 (esc)
  One
  Two
  tricky
  © 2024 Anna
  $ tl select -t article blog.html | head -3
  (empty)
  Bread & butter
  First paragraph with emphasis and 3 < 4.

The first match; by a beginning; one in another; several files; values and upper-case names; lists and cells.

  $ tl select -1a href 'nav a' blog.html
  /
  $ tl select -c 'a[href^=http]' blog.html
  2
  $ tl select -t 'article > h2 > a' blog.html
  Bread & butter
  Cheese
  $ tl select -c li blog.html blog.html
  blog.html:4
  blog.html:4
  $ tl select -t p.intro blog.html
  Upper case
  $ tl select -a class p blog.html
  intro
  $ tl select -t 'ul > li > a' blog.html
  Home
  About
  Elsewhere
  Third
  $ tl select -t 'tr > td' blog.html
  Rye
  3.20
  White "soft"
  2,10
  Spelt & oat
  4.50
  (empty)
  $ tl select -a value option blog.html
  1
  2
  $ tl select -a onclick '[onclick]' blog.html
  return f('a>b')
  $ printf '<p\tid="t">a\r\nb' | tl select --json p
  [{"attributes":{"id":"t"},"name":"p","node":3,"start":0,"end":10,"text":"a\nb"}]
  $ printf '<!-- a --><p>b<!-- c -->' | tl select '*'
  <html><head></head><body><p>b<!-- c --></p></body></html>
  <head></head>
  <body><p>b<!-- c --></p></body>
  <p>b<!-- c --></p>
  $ printf '<!DOCTYPE html PUBLIC "-//W3C//DTD XHTML 1.0 Transitional//EN" "http://www.w3.org/TR/xhtml1/DTD/xhtml1-transitional.dtd"><p>x' | tl text -w
  x
  $ printf '<?xml version="1.0"?><title>x</title\n><p>y' | tl text -w
  y
  $ printf 'if <script>if (1 < 2) { f(); }</script> done' | tl text
  if if (1 < 2) { f(); } done (no-eol)
  $ printf '%s' "<a title='say \"hi\"'>w" | tl select a
  <a title="say &quot;hi&quot;">w</a>
  $ printf '<p>Caf&eacute; &#8364; 5, a&nbsp;b &copy &amp;lt;' | tl text
  Café € 5, a\xa0b © &lt; (esc) (no-eol)

What people type into a comment stays as they typed it.

  $ printf '%s' 'I <3 you all & me' | tl sanitize
  I &lt;3 you all &amp; me (no-eol)
  $ printf '%s' 'see <- here and on' | tl sanitize
  see &lt;- here and on (no-eol)
  $ printf '%s' 'x << 2 and y >> 1' | tl sanitize
  x &lt;&lt; 2 and y &gt;&gt; 1 (no-eol)
  $ printf '%s' 'a <= b, c >= d. Done.' | tl sanitize
  a &lt;= b, c &gt;= d. Done. (no-eol)
  $ printf '%s' 'price <$5, ok?' | tl sanitize
  price &lt;$5, ok? (no-eol)
  $ printf '%s' '<a href=/x>y</a>' | tl sanitize
  <a href="/x">y</a> (no-eol)
  $ printf '%s' '<A HREF="/x">y</A>' | tl sanitize
  <a href="/x">y</a> (no-eol)
  $ printf '%s' '<a title='"'"'say "hi"'"'"'>w</a>' | tl sanitize
  <a title="say &quot;hi&quot;">w</a> (no-eol)

Names are asked and written as the page has them, those of HTML in lower case.

  $ printf '<P>a<p>b' | tl outline
  html
    head
    body
      p
        "a"
      p
        "b"
  $ printf '<a @click="f()" :Class="{a:b}" data-a.b=1>&lt;b&gt; &amp; \047c\047</a>' >names.html
  $ tl select -a @click a names.html
  f()
  $ tl select -a :CLASS a names.html
  {a:b}
  $ tl select -a data-a.b a names.html
  1
  $ tl select --json a names.html
  [{"attributes":{"@click":"f()",":class":"{a:b}","data-a.b":"1"},"name":"a","node":3,"start":0,"end":42,"text":"<b> & 'c'"}]
  $ tl select -a @click '[\@click]' names.html
  f()
  $ tl select -c '[data-a\.b="1"]' names.html
  1
  $ printf '<a title="a &amp; b">c' | tl select -t '[title="a & b"]'
  c
  $ tl select a names.html
  <a @click="f()" :class="{a:b}" data-a.b="1">&lt;b&gt; &amp; 'c'</a>
  $ tl select -H a names.html
  &lt;b&gt; &amp; 'c'
  $ tl select -t a names.html
  <b> & 'c'
  $ tl text names.html
  <b> & 'c' (no-eol)
  $ printf '<o:p>a &lt; b</o:p><x.y>c' | tl outline
  html
    head
    body
      o\:p
        "a < b"
      x\.y
        "c"
  $ printf '<a href="?q=1&amp;r=2&lt=3">' | tl links
  ?q=1&r=2&lt=3
  $ printf '<a href="?q=1&amp;r=2">' | tl links -0
  ?q=1&r=2\x00 (esc) (no-eol)

Encodings.

  $ printf '<p>caf\351 \200' >latin1.html
  $ printf '<!doctype html><meta charset="ISO-8859-1"><p>caf\351 \200' >meta.html
  $ printf '<meta http-equiv=Content-Type content="text/html; charset=windows-1252"><p>caf\351' >http.html
  $ printf '\357\273\277<p>caf\303\251' >mark.html
  $ tl text --strict latin1.html
  tl: latin1.html: invalid UTF-8 at byte 6; --encoding names the encoding (err)
  [2]
  $ tl text latin1.html
  caf� � (no-eol)
  $ tl text --encoding latin1 latin1.html
  café € (no-eol)
  $ tl text --encoding=Windows-1252 latin1.html
  café € (no-eol)
  $ tl select --encoding latin1 -t p latin1.html
  café €
  $ tl outline --encoding latin1 latin1.html
  html
    head
    body
      p
        "café €"
  $ printf '<a href=\351><table><tr><td>\200' | tl links --encoding latin1
  é
  $ printf '<a href=\351><table><tr><td>\200' | tl table --encoding latin1
  €
  $ tl text --strict --encoding utf-8 latin1.html
  tl: latin1.html: invalid UTF-8 at byte 6 (err)
  [2]
  $ tl text meta.html
  café € (no-eol)
  $ tl text --strict --encoding utf8 meta.html
  tl: meta.html: invalid UTF-8 at byte 48 (err)
  [2]
  $ tl text http.html
  café (no-eol)
  $ tl text mark.html
  café (no-eol)
  $ tl select --strict -t p meta.html latin1.html mark.html
  meta.html:café €
  mark.html:café
  tl: latin1.html: invalid UTF-8 at byte 6; --encoding names the encoding (err)
  [2]
  $ printf '<p>caf\303\251<meta charset=latin1>' | tl text
  cafÃ© (no-eol)
  $ printf '<p>caf\303\251<meta charset=latin1>' | tl text --encoding auto
  café (no-eol)
  $ printf '\376\377\0<\0p\0>\0\351' | tl text
  é (no-eol)
  $ printf '\377\376<\0p\0>\0\351\0' | tl text
  é (no-eol)
  $ printf '<meta charset=Shift_JIS><p>\203e\203X\203g' | tl text
  テスト (no-eol)
  $ printf '<!-- <meta charset=koi8-r> --><meta charset=" latin1 "><p>caf\351' | tl text
  café (no-eol)
  $ printf '<meta name=description content="charset=koi8-r"><meta charset=latin1><p>caf\351' | tl text
  café (no-eol)
  $ printf '<meta charset=""><p>\351' | tl text --strict
  tl: -: invalid UTF-8 at byte 20; --encoding names the encoding (err)
  [2]
  $ printf '<meta charset=" gbk "><p>\312\324' | tl text
  试 (no-eol)
  $ printf '<meta charset=utf-8><p>\203' | tl text --strict
  tl: -: invalid UTF-8 at byte 23; --encoding names the encoding (err)
  [2]
  $ (head -c 1024 /dev/zero | tr '\0' a; printf '<meta charset=latin1>\351') | tl text --strict | tail -c 3
  tl: -: invalid UTF-8 at byte 1045; --encoding names the encoding (err)
  $ printf '<?xml version="1.0" encoding="iso-8859-1"?><p>caf\351' | tl text
  café (no-eol)
  $ printf '<?xml version="1.0" encoding="koi8-r"?><meta charset=latin1><p>caf\351' | tl text
  café (no-eol)
  $ printf '<?xml version="1.0" encoding="koi8-r"?><p>\351' | tl text
  И (no-eol)
  $ printf '<?xml version="1.0" encoding="gbk"?><p>\312\324' | tl text
  试 (no-eol)
  $ printf '<?xml version="1.0" encoding=latin1?><p>\351' | tl text --strict
  tl: -: invalid UTF-8 at byte 40; --encoding names the encoding (err)
  [2]
  $ (printf '<?xml '; head -c 1024 /dev/zero | tr '\0' a; printf ' encoding="latin1"?>\351') | tl text --strict | tail -c 3
  tl: -: invalid UTF-8 at byte 1050; --encoding names the encoding (err)
  $ printf '<\0?\0x\0m\0l\0>\0\351\0' | tl text
  é (no-eol)
  $ printf '\0<\0?\0x\0m\0l\0>\0\351' | tl text
  é (no-eol)
  $ tl text --encoding utf-7 meta.html
  tl: unknown encoding: utf-7 (err)
  [2]
  $ tl print meta.html
  <!DOCTYPE html><html><head><meta charset="ISO-8859-1"></head><body><p>café €</p></body></html> (no-eol)
  $ tl print --encoding latin1 latin1.html
  <html><head></head><body><p>café €</p></body></html> (no-eol)
  $ tl sanitize meta.html
  <p>café €</p> (no-eol)
  $ tl sanitize --encoding latin1 latin1.html
  <p>café €</p> (no-eol)

Forms of today's pages, one on each line; below each is what it holds.

  $ cat >forms <<'END'
  > <button @click="f()" :class="{a:b}" v-if="x">t</button>
  > <div *ngIf="a" [value]="b" (click)="c()" #ref>t</div>
  > <a x-on:click.prevent="f" href="/y">t</a>
  > <a href="/x"class="y">t</a>
  > <html ⚡ lang="en"><p>x</p></html>
  > <!--[if lt IE 9]><script src="/h.js"></script><![endif]--><p>x</p>
  > <![if !IE]><p>x</p><![endif]>
  > <p>a<o:p></o:p></p>
  > <div data-a.b="1" id=x>t</div>
  > <a href="/x" href="/y">t</a>
  > <a href = "/x" >t</a>
  > <a\thref="/x"\tid="q">t</a>
  > <input value=a/b/c name=n>
  > <img src=/a.png alt="x">
  > <a href=?q=1&r=2>t</a>
  > <td width=50% nowrap>t</td>
  > <font color=#fff>t</font>
  > <a href=#top>t</a>
  > <div style=color:red;top:1px>t</div>
  > <p class="a\nb">t</p>
  > <a title=">" href="/x">t</a>
  > <br clear=all>t
  > <p>x</p ><p>y</p>
  > <A HREF="/x">t</a>
  > <a href="/x">t</A>
  > <option selected value=1>One
  > <script>document.write("<a href='/w'>w</a>")</script><p>x</p>
  > <style>a>b{c:d}</style><p>x</p>
  > <style>@import "<x>";</style><p>x</p>
  > <textarea><p>no</p></textarea><p>x</p>
  > <title>a<b>c</title><p>x</p>
  > <svg><path d="M0 0"/></svg><p>x</p>
  > <p>1 < 2</p><p>x</p>
  > <p>a &lt; b</p>
  > <noscript><img src="/n.png"></noscript><p>x</p>
  > <iframe src="/f">fallback <p></iframe><p>x</p>
  > <ul><li>a<li>b</ul><p>x</p>
  > <table><tr><td>1<td>2<tr><td>3</table>
  > <p>a<div>b</div>c</p>
  > <p>a<p>b
  > <b><i>x</b>y</i>
  > <a href="/1">a<a href="/2">b</a>
  > <select><option>1<option>2</select><p>x</p>
  > <video src=v.mp4 controls></video>
  > <time datetime=2024-01-01T10:00>t</time>
  > <meta name=viewport content=width=device-width>
  > <link rel=stylesheet href=style.css>
  > <a href=https://x.org/a>t</a>
  > <body onload=init()>x</body>
  > <a href="x" / id="y">t</a>
  > END
  $ while read -r page; do printf '%b' "$page" | tl select --json '*'; done <forms
  [{"attributes":{},"name":"html","node":0,"text":"t"},{"attributes":{},"name":"head","node":1,"text":""},{"attributes":{},"name":"body","node":2,"text":"t"},{"attributes":{"@click":"f()",":class":"{a:b}","v-if":"x"},"name":"button","node":3,"start":0,"end":45,"text":"t"}]
  [{"attributes":{},"name":"html","node":0,"text":"t"},{"attributes":{},"name":"head","node":1,"text":""},{"attributes":{},"name":"body","node":2,"text":"t"},{"attributes":{"*ngif":"a","[value]":"b","(click)":"c()","#ref":""},"name":"div","node":3,"start":0,"end":46,"text":"t"}]
  [{"attributes":{},"name":"html","node":0,"text":"t"},{"attributes":{},"name":"head","node":1,"text":""},{"attributes":{},"name":"body","node":2,"text":"t"},{"attributes":{"x-on:click.prevent":"f","href":"/y"},"name":"a","node":3,"start":0,"end":36,"text":"t"}]
  [{"attributes":{},"name":"html","node":0,"text":"t"},{"attributes":{},"name":"head","node":1,"text":""},{"attributes":{},"name":"body","node":2,"text":"t"},{"attributes":{"href":"/x","class":"y"},"name":"a","node":3,"start":0,"end":22,"text":"t"}]
  [{"attributes":{"⚡":"","lang":"en"},"name":"html","node":0,"start":0,"end":20,"text":"x"},{"attributes":{},"name":"head","node":1,"text":""},{"attributes":{},"name":"body","node":2,"text":"x"},{"attributes":{},"name":"p","node":3,"start":20,"end":23,"text":"x"}]
  [{"attributes":{},"name":"html","node":1,"text":"x"},{"attributes":{},"name":"head","node":2,"text":""},{"attributes":{},"name":"body","node":3,"text":"x"},{"attributes":{},"name":"p","node":4,"start":58,"end":61,"text":"x"}]
  [{"attributes":{},"name":"html","node":1,"text":"x"},{"attributes":{},"name":"head","node":2,"text":""},{"attributes":{},"name":"body","node":3,"text":"x"},{"attributes":{},"name":"p","node":4,"start":11,"end":14,"text":"x"}]
  [{"attributes":{},"name":"html","node":0,"text":"a"},{"attributes":{},"name":"head","node":1,"text":""},{"attributes":{},"name":"body","node":2,"text":"a"},{"attributes":{},"name":"p","node":3,"start":0,"end":3,"text":"a"},{"attributes":{},"name":"o:p","node":5,"start":4,"end":9,"text":""}]
  [{"attributes":{},"name":"html","node":0,"text":"t"},{"attributes":{},"name":"head","node":1,"text":""},{"attributes":{},"name":"body","node":2,"text":"t"},{"attributes":{"data-a.b":"1","id":"x"},"name":"div","node":3,"start":0,"end":23,"text":"t"}]
  [{"attributes":{},"name":"html","node":0,"text":"t"},{"attributes":{},"name":"head","node":1,"text":""},{"attributes":{},"name":"body","node":2,"text":"t"},{"attributes":{"href":"/x"},"name":"a","node":3,"start":0,"end":23,"text":"t"}]
  [{"attributes":{},"name":"html","node":0,"text":"t"},{"attributes":{},"name":"head","node":1,"text":""},{"attributes":{},"name":"body","node":2,"text":"t"},{"attributes":{"href":"/x"},"name":"a","node":3,"start":0,"end":16,"text":"t"}]
  [{"attributes":{},"name":"html","node":0,"text":"t"},{"attributes":{},"name":"head","node":1,"text":""},{"attributes":{},"name":"body","node":2,"text":"t"},{"attributes":{"href":"/x","id":"q"},"name":"a","node":3,"start":0,"end":20,"text":"t"}]
  [{"attributes":{},"name":"html","node":0,"text":""},{"attributes":{},"name":"head","node":1,"text":""},{"attributes":{},"name":"body","node":2,"text":""},{"attributes":{"value":"a/b/c","name":"n"},"name":"input","node":3,"start":0,"end":26,"text":""}]
  [{"attributes":{},"name":"html","node":0,"text":""},{"attributes":{},"name":"head","node":1,"text":""},{"attributes":{},"name":"body","node":2,"text":""},{"attributes":{"src":"/a.png","alt":"x"},"name":"img","node":3,"start":0,"end":24,"text":""}]
  [{"attributes":{},"name":"html","node":0,"text":"t"},{"attributes":{},"name":"head","node":1,"text":""},{"attributes":{},"name":"body","node":2,"text":"t"},{"attributes":{"href":"?q=1&r=2"},"name":"a","node":3,"start":0,"end":17,"text":"t"}]
  [{"attributes":{},"name":"html","node":0,"text":"t"},{"attributes":{},"name":"head","node":1,"text":""},{"attributes":{},"name":"body","node":2,"text":"t"}]
  [{"attributes":{},"name":"html","node":0,"text":"t"},{"attributes":{},"name":"head","node":1,"text":""},{"attributes":{},"name":"body","node":2,"text":"t"},{"attributes":{"color":"#fff"},"name":"font","node":3,"start":0,"end":17,"text":"t"}]
  [{"attributes":{},"name":"html","node":0,"text":"t"},{"attributes":{},"name":"head","node":1,"text":""},{"attributes":{},"name":"body","node":2,"text":"t"},{"attributes":{"href":"#top"},"name":"a","node":3,"start":0,"end":13,"text":"t"}]
  [{"attributes":{},"name":"html","node":0,"text":"t"},{"attributes":{},"name":"head","node":1,"text":""},{"attributes":{},"name":"body","node":2,"text":"t"},{"attributes":{"style":"color:red;top:1px"},"name":"div","node":3,"start":0,"end":29,"text":"t"}]
  [{"attributes":{},"name":"html","node":0,"text":"t"},{"attributes":{},"name":"head","node":1,"text":""},{"attributes":{},"name":"body","node":2,"text":"t"},{"attributes":{"class":"a\nb"},"name":"p","node":3,"start":0,"end":15,"text":"t"}]
  [{"attributes":{},"name":"html","node":0,"text":"t"},{"attributes":{},"name":"head","node":1,"text":""},{"attributes":{},"name":"body","node":2,"text":"t"},{"attributes":{"title":">","href":"/x"},"name":"a","node":3,"start":0,"end":23,"text":"t"}]
  [{"attributes":{},"name":"html","node":0,"text":"t"},{"attributes":{},"name":"head","node":1,"text":""},{"attributes":{},"name":"body","node":2,"text":"t"},{"attributes":{"clear":"all"},"name":"br","node":3,"start":0,"end":14,"text":""}]
  [{"attributes":{},"name":"html","node":0,"text":"xy"},{"attributes":{},"name":"head","node":1,"text":""},{"attributes":{},"name":"body","node":2,"text":"xy"},{"attributes":{},"name":"p","node":3,"start":0,"end":3,"text":"x"},{"attributes":{},"name":"p","node":5,"start":9,"end":12,"text":"y"}]
  [{"attributes":{},"name":"html","node":0,"text":"t"},{"attributes":{},"name":"head","node":1,"text":""},{"attributes":{},"name":"body","node":2,"text":"t"},{"attributes":{"href":"/x"},"name":"a","node":3,"start":0,"end":13,"text":"t"}]
  [{"attributes":{},"name":"html","node":0,"text":"t"},{"attributes":{},"name":"head","node":1,"text":""},{"attributes":{},"name":"body","node":2,"text":"t"},{"attributes":{"href":"/x"},"name":"a","node":3,"start":0,"end":13,"text":"t"}]
  [{"attributes":{},"name":"html","node":0,"text":"One"},{"attributes":{},"name":"head","node":1,"text":""},{"attributes":{},"name":"body","node":2,"text":"One"},{"attributes":{"selected":"","value":"1"},"name":"option","node":3,"start":0,"end":25,"text":"One"}]
  [{"attributes":{},"name":"html","node":0,"text":"document.write(\"<a href='/w'>w</a>\")x"},{"attributes":{},"name":"head","node":1,"text":"document.write(\"<a href='/w'>w</a>\")"},{"attributes":{},"name":"script","node":2,"start":0,"end":8,"text":"document.write(\"<a href='/w'>w</a>\")"},{"attributes":{},"name":"body","node":4,"text":"x"},{"attributes":{},"name":"p","node":5,"start":53,"end":56,"text":"x"}]
  [{"attributes":{},"name":"html","node":0,"text":"a>b{c:d}x"},{"attributes":{},"name":"head","node":1,"text":"a>b{c:d}"},{"attributes":{},"name":"style","node":2,"start":0,"end":7,"text":"a>b{c:d}"},{"attributes":{},"name":"body","node":4,"text":"x"},{"attributes":{},"name":"p","node":5,"start":23,"end":26,"text":"x"}]
  [{"attributes":{},"name":"html","node":0,"text":"@import \"<x>\";x"},{"attributes":{},"name":"head","node":1,"text":"@import \"<x>\";"},{"attributes":{},"name":"style","node":2,"start":0,"end":7,"text":"@import \"<x>\";"},{"attributes":{},"name":"body","node":4,"text":"x"},{"attributes":{},"name":"p","node":5,"start":29,"end":32,"text":"x"}]
  [{"attributes":{},"name":"html","node":0,"text":"<p>no</p>x"},{"attributes":{},"name":"head","node":1,"text":""},{"attributes":{},"name":"body","node":2,"text":"<p>no</p>x"},{"attributes":{},"name":"textarea","node":3,"start":0,"end":10,"text":"<p>no</p>"},{"attributes":{},"name":"p","node":5,"start":30,"end":33,"text":"x"}]
  [{"attributes":{},"name":"html","node":0,"text":"a<b>cx"},{"attributes":{},"name":"head","node":1,"text":"a<b>c"},{"attributes":{},"name":"title","node":2,"start":0,"end":7,"text":"a<b>c"},{"attributes":{},"name":"body","node":4,"text":"x"},{"attributes":{},"name":"p","node":5,"start":20,"end":23,"text":"x"}]
  [{"attributes":{},"name":"html","node":0,"text":"x"},{"attributes":{},"name":"head","node":1,"text":""},{"attributes":{},"name":"body","node":2,"text":"x"},{"attributes":{},"name":"svg","namespace":"svg","node":3,"start":0,"end":5,"text":""},{"attributes":{"d":"M0 0"},"name":"path","namespace":"svg","node":4,"start":5,"end":21,"text":""},{"attributes":{},"name":"p","node":5,"start":27,"end":30,"text":"x"}]
  [{"attributes":{},"name":"html","node":0,"text":"1 < 2x"},{"attributes":{},"name":"head","node":1,"text":""},{"attributes":{},"name":"body","node":2,"text":"1 < 2x"},{"attributes":{},"name":"p","node":3,"start":0,"end":3,"text":"1 < 2"},{"attributes":{},"name":"p","node":5,"start":12,"end":15,"text":"x"}]
  [{"attributes":{},"name":"html","node":0,"text":"a < b"},{"attributes":{},"name":"head","node":1,"text":""},{"attributes":{},"name":"body","node":2,"text":"a < b"},{"attributes":{},"name":"p","node":3,"start":0,"end":3,"text":"a < b"}]
  [{"attributes":{},"name":"html","node":0,"text":"x"},{"attributes":{},"name":"head","node":1,"text":""},{"attributes":{},"name":"noscript","node":2,"start":0,"end":10,"text":""},{"attributes":{},"name":"body","node":3,"text":"x"},{"attributes":{"src":"/n.png"},"name":"img","node":4,"start":10,"end":28,"text":""},{"attributes":{},"name":"p","node":5,"start":39,"end":42,"text":"x"}]
  [{"attributes":{},"name":"html","node":0,"text":"fallback <p>x"},{"attributes":{},"name":"head","node":1,"text":""},{"attributes":{},"name":"body","node":2,"text":"fallback <p>x"},{"attributes":{"src":"/f"},"name":"iframe","node":3,"start":0,"end":17,"text":"fallback <p>"},{"attributes":{},"name":"p","node":5,"start":38,"end":41,"text":"x"}]
  [{"attributes":{},"name":"html","node":0,"text":"abx"},{"attributes":{},"name":"head","node":1,"text":""},{"attributes":{},"name":"body","node":2,"text":"abx"},{"attributes":{},"name":"ul","node":3,"start":0,"end":4,"text":"ab"},{"attributes":{},"name":"li","node":4,"start":4,"end":8,"text":"a"},{"attributes":{},"name":"li","node":6,"start":9,"end":13,"text":"b"},{"attributes":{},"name":"p","node":8,"start":19,"end":22,"text":"x"}]
  [{"attributes":{},"name":"html","node":0,"text":"123"},{"attributes":{},"name":"head","node":1,"text":""},{"attributes":{},"name":"body","node":2,"text":"123"},{"attributes":{},"name":"table","node":3,"start":0,"end":7,"text":"123"},{"attributes":{},"name":"tbody","node":4,"text":"123"},{"attributes":{},"name":"tr","node":5,"start":7,"end":11,"text":"12"},{"attributes":{},"name":"td","node":6,"start":11,"end":15,"text":"1"},{"attributes":{},"name":"td","node":8,"start":16,"end":20,"text":"2"},{"attributes":{},"name":"tr","node":10,"start":21,"end":25,"text":"3"},{"attributes":{},"name":"td","node":11,"start":25,"end":29,"text":"3"}]
  [{"attributes":{},"name":"html","node":0,"text":"abc"},{"attributes":{},"name":"head","node":1,"text":""},{"attributes":{},"name":"body","node":2,"text":"abc"},{"attributes":{},"name":"p","node":3,"start":0,"end":3,"text":"a"},{"attributes":{},"name":"div","node":5,"start":4,"end":9,"text":"b"},{"attributes":{},"name":"p","node":8,"text":""}]
  [{"attributes":{},"name":"html","node":0,"text":"ab"},{"attributes":{},"name":"head","node":1,"text":""},{"attributes":{},"name":"body","node":2,"text":"ab"},{"attributes":{},"name":"p","node":3,"start":0,"end":3,"text":"a"},{"attributes":{},"name":"p","node":5,"start":4,"end":7,"text":"b"}]
  [{"attributes":{},"name":"html","node":0,"text":"xy"},{"attributes":{},"name":"head","node":1,"text":""},{"attributes":{},"name":"body","node":2,"text":"xy"},{"attributes":{},"name":"b","node":3,"start":0,"end":3,"text":"x"},{"attributes":{},"name":"i","node":4,"start":3,"end":6,"text":"x"},{"attributes":{},"name":"i","node":6,"start":3,"end":6,"text":"y"}]
  [{"attributes":{},"name":"html","node":0,"text":"ab"},{"attributes":{},"name":"head","node":1,"text":""},{"attributes":{},"name":"body","node":2,"text":"ab"},{"attributes":{"href":"/1"},"name":"a","node":3,"start":0,"end":13,"text":"a"},{"attributes":{"href":"/2"},"name":"a","node":5,"start":14,"end":27,"text":"b"}]
  [{"attributes":{},"name":"html","node":0,"text":"12x"},{"attributes":{},"name":"head","node":1,"text":""},{"attributes":{},"name":"body","node":2,"text":"12x"},{"attributes":{},"name":"select","node":3,"start":0,"end":8,"text":"12"},{"attributes":{},"name":"option","node":4,"start":8,"end":16,"text":"1"},{"attributes":{},"name":"option","node":6,"start":17,"end":25,"text":"2"},{"attributes":{},"name":"p","node":8,"start":35,"end":38,"text":"x"}]
  [{"attributes":{},"name":"html","node":0,"text":""},{"attributes":{},"name":"head","node":1,"text":""},{"attributes":{},"name":"body","node":2,"text":""},{"attributes":{"src":"v.mp4","controls":""},"name":"video","node":3,"start":0,"end":26,"text":""}]
  [{"attributes":{},"name":"html","node":0,"text":"t"},{"attributes":{},"name":"head","node":1,"text":""},{"attributes":{},"name":"body","node":2,"text":"t"},{"attributes":{"datetime":"2024-01-01T10:00"},"name":"time","node":3,"start":0,"end":32,"text":"t"}]
  [{"attributes":{},"name":"html","node":0,"text":""},{"attributes":{},"name":"head","node":1,"text":""},{"attributes":{"name":"viewport","content":"width=device-width"},"name":"meta","node":2,"start":0,"end":47,"text":""},{"attributes":{},"name":"body","node":3,"text":""}]
  [{"attributes":{},"name":"html","node":0,"text":""},{"attributes":{},"name":"head","node":1,"text":""},{"attributes":{"rel":"stylesheet","href":"style.css"},"name":"link","node":2,"start":0,"end":36,"text":""},{"attributes":{},"name":"body","node":3,"text":""}]
  [{"attributes":{},"name":"html","node":0,"text":"t"},{"attributes":{},"name":"head","node":1,"text":""},{"attributes":{},"name":"body","node":2,"text":"t"},{"attributes":{"href":"https://x.org/a"},"name":"a","node":3,"start":0,"end":24,"text":"t"}]
  [{"attributes":{},"name":"html","node":0,"text":"x"},{"attributes":{},"name":"head","node":1,"text":""},{"attributes":{"onload":"init()"},"name":"body","node":2,"start":0,"end":20,"text":"x"}]
  [{"attributes":{},"name":"html","node":0,"text":"t"},{"attributes":{},"name":"head","node":1,"text":""},{"attributes":{},"name":"body","node":2,"text":"t"},{"attributes":{"href":"x","id":"y"},"name":"a","node":3,"start":0,"end":21,"text":"t"}]

Help says how pages are read.

  $ for command in select links text print outline sanitize; do tl $command --help >help && grep -c -e '--encoding' help; done
  1
  1
  1
  1
  1
  1
  $ tl --help | grep -o '^Pages are parsed as browsers parse them'
  Pages are parsed as browsers parse them
