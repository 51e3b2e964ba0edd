The tree of a page, as browsers build it: selectors as developer tools copy them, and prints as browsers write them. What is selected
and printed here is what Chromium answers of the same page.

Tables: `tbody` and `colgroup` are put in, and what stands in no cell comes before the table.

  $ printf '<!doctype html><title>Prices</title><table id=prices><tr><td>Rye<td>3.20<tr><td>Oat<td>4.50</table>' >prices.html
  $ tl select -t '#prices > tbody > tr:nth-child(2) > td:nth-child(1)' prices.html
  Oat
  $ tl select -t 'html > body > table > tbody > tr > td:last-child' prices.html
  3.20
  4.50
  $ tl select -t 'body > table:nth-child(1) > tbody:nth-child(1) > tr:nth-child(1)' prices.html
  Rye3.20
  $ tl select -c 'table > tr' prices.html
  0
  [1]
  $ tl select table prices.html
  <table id="prices"><tbody><tr><td>Rye</td><td>3.20</td></tr><tr><td>Oat</td><td>4.50</td></tr></tbody></table>
  $ printf '<table><col><caption>k<tr><td>a</table>' | tl select table
  <table><colgroup><col></colgroup><caption>k</caption><tbody><tr><td>a</td></tr></tbody></table>
  $ printf '<table>a<tr><td>b</table>c' | tl select -H body
  a<table><tbody><tr><td>b</td></tr></tbody></table>c
  $ printf '<table><tr><td>b</td><p>c<tr><td>d</table>' | tl select -H body
  <p>c</p><table><tbody><tr><td>b</td></tr><tr><td>d</td></tr></tbody></table>
  $ printf '<table>a<tr><td>b</table>' | tl text
  ab (no-eol)
  $ printf '<table><tr><td><table><tr><td>i</table>o</table>' | tl select -t 'body > table > tbody > tr > td > table > tbody > tr > td'
  i
  $ printf '<table><form><tr><td><input></form></table>' | tl select table
  <table><form></form><tbody><tr><td><input></td></tr></tbody></table>
  $ printf '<tr><td>a</td></tr>' | tl select -H body
  a

What a page leaves out stands there: `html`, `head`, `body`. Of a second tag of these the attributes go to the first.

  $ printf '<title>t</title><p>a<p>b' >short.html
  $ tl select 'html' short.html
  <html><head><title>t</title></head><body><p>a</p><p>b</p></body></html>
  $ tl select -t 'html > head > title' short.html
  t
  $ tl select -t 'html > body > p:nth-child(2)' short.html
  b
  $ tl select -n '*' short.html
  0
  1
  2
  4
  5
  7
  $ printf '' | tl select html
  <html><head></head><body></body></html>
  $ printf '<body class=a><p>x<body class=b lang=en>' | tl select body
  <body class="a" lang="en"><p>x</p></body>
  $ printf '<html lang=de><p>x<html lang=en class=k>' | tl select html
  <html lang="de" class="k"><head></head><body><p>x</p></body></html>
  $ printf '<p>a</p></body></html>b<!-- c -->' | tl select -H body
  <p>a</p>b<!-- c -->
  $ printf '<head><p>a<meta charset=utf-8>' | tl select -H html
  <head></head><body><p>a<meta charset="utf-8"></p></body>

Tags that cross others.

  $ printf '<p>1<b>2<i>3</b>4</i>5</p>' | tl select -H body
  <p>1<b>2<i>3</i></b><i>4</i>5</p>
  $ printf '<p>1<b>2<i>3</b>4</i>5</p>' | tl select -t 'body > p > b > i'
  3
  $ printf '<b>1<p>2</b>3' | tl select -H body
  <b>1</b><p><b>2</b>3</p>
  $ printf '<a href=1>x<div>y<a href=2>z</div>' | tl select a
  <a href="1">x</a>
  <a href="1">y</a>
  <a href="2">z</a>
  $ printf '<ul><li>a<ul><li>b</ul><li>c</ul>' | tl select -t 'body > ul > li:nth-child(1) > ul > li'
  b
  $ printf '<p><div>a</div></p>' | tl select -H body
  <p></p><div>a</div><p></p>
  $ printf '<form><form><input></form><input></form><input>' | tl select -H body
  <form><input></form><input><input>
  $ printf '<h1>a<h2>b</h1>' | tl select -H body
  <h1>a</h1><h2>b</h2>
  $ printf '<p>a<table><tr><td>b</table>' | tl select -H body
  <p>a<table><tbody><tr><td>b</td></tr></tbody></table></p>
  $ printf '<!doctype html><p>a<table><tr><td>b</table>' | tl select -H body
  <p>a</p><table><tbody><tr><td>b</td></tr></tbody></table>
  $ printf '</p>a</br>b' | tl select -H body
  a<br>b

Pictures: names have the case of `svg`, in a selector any case, and what stands in `title` and `style` is markup.

  $ printf '<!doctype html><button class=x><svg viewbox="0 0 9 9"><title>Close <b>x</b></title><style>.a > b{}</style><lineargradient id=g /><use xlink:href="#i"/></svg>ok</button>' >icon.html
  $ tl select svg icon.html
  <svg viewBox="0 0 9 9"><title>Close <b>x</b></title><style>.a &gt; b{}</style><linearGradient id="g"></linearGradient><use xlink:href="#i"></use></svg>
  $ tl select -t 'body > button > svg > title' icon.html
  Close x
  $ tl select 'svg > linearGradient' icon.html
  <linearGradient id="g"></linearGradient>
  $ tl select -c 'svg style' icon.html
  1
  $ tl select -a viewBox svg icon.html
  0 0 9 9
  $ tl select -a viewbox svg icon.html
  [1]
  $ tl select -c '[viewBox]' icon.html
  1
  $ tl select -a xlink:href 'svg > use' icon.html
  [1]
  $ tl select -c '[href]' icon.html
  0
  [1]
  $ printf '<svg><title>Close</title><path/></svg><p>x' | tl select -t 'body > svg:nth-child(1) > title'
  Close
  $ printf '<svg><desc><p>a</svg>b' | tl select -H body
  <svg><desc><p>ab</p></desc></svg>
  $ printf '<svg><p>a</svg>b' | tl select -H body
  <svg></svg><p>ab</p>
  $ printf '<svg><![CDATA[a<b]]></svg>' | tl select svg
  <svg>a&lt;b</svg>
  $ printf '<svg><foreignObject><p>a</foreignObject></svg>' | tl select 'svg > foreignObject > p'
  <p>a</p>
  $ printf '<svg><script>a<b>c</b></script></svg><script>a<b>c</b></script>' | tl select script
  <script>a</script>
  <script>a<b>c</b></script>
  $ printf '<math><mi>x<p>y</math>' | tl select math
  <math><mi>x<p>y</p></mi></math>
  $ printf '<math definitionurl=d><annotation-xml encoding=text/html><p>a</annotation-xml></math>' | tl select math
  <math definitionURL="d"><annotation-xml encoding="text/html"><p>a</p></annotation-xml></math>
  $ printf '<image src=a.png>' | tl select img
  <img src="a.png">

What is in a `template` is a tree of its own.

  $ printf '<!doctype html><template id=row><tr><td>a</template><p>b' >template.html
  $ tl select -t 'td, p' template.html
  b
  $ tl select template template.html
  <template id="row"><tr><td>a</td></tr></template>
  $ tl select -H template template.html
  <tr><td>a</td></tr>
  $ tl select -n '*' template.html
  1
  2
  3
  8
  9
  $ tl select -c 'template:empty' template.html
  1
  $ tl text template.html
  b (no-eol)

A `select` with more than options, a `noscript`, frames.

  $ printf '<select><button><selectedcontent></selectedcontent></button><option value=a><b>A</b> x<option><img src=i.png alt=B></select>' >rich.html
  $ tl select 'select option' rich.html
  <option value="a"><b>A</b> x</option>
  <option><img src="i.png" alt="B"></option>
  $ tl select -t 'body > select > option:nth-child(2) > b' rich.html
  A
  $ printf '<select><div><option>A</div><option>B</select>' | tl select -t 'body > select > div > option'
  A
  $ printf '<select><option>A<select><option>B</select>' | tl select -H body
  <select><option>A</option></select><option>B</option>
  $ printf '<head><noscript><link rel=stylesheet href=a.css></noscript>' | tl select 'html > head > noscript > link'
  <link rel="stylesheet" href="a.css">
  $ printf '<body><noscript><img src=n.png></noscript>' | tl select -a src 'body > noscript > img'
  n.png
  $ printf '<noscript><img src=n.png></noscript>' | tl select -H html
  <head><noscript></noscript></head><body><img src="n.png"></body>
  $ printf '<frameset cols=1,2><frame src=a><frame src=b><noframes><p>x</noframes></frameset>' >frames.html
  $ tl select html frames.html
  <html><head></head><frameset cols="1,2"><frame src="a"><frame src="b"><noframes><p>x</noframes></frameset></html>
  $ tl select -a src 'html > frameset > frame:nth-child(2)' frames.html
  b

Without a doctype, or with an old one, ids and classes hold in any case.

  $ printf '<p id=Top class="Big X">a' | tl select -c '#top.big'
  1
  $ printf '<!doctype html><p id=Top class="Big X">a' | tl select -c '#top.big'
  0
  [1]
  $ printf '<!doctype html public "-//W3C//DTD HTML 3.2//EN"><p class=Big>a' | tl select -c .big
  1
  $ printf '<!doctype html><input type=TEXT><ol type=A><p data-x=TEXT>' | tl select -c '[type=text]'
  1
  $ printf '<!doctype html><input type=TEXT><ol type=A><p data-x=TEXT>' | tl select -c '[type=a], [data-x=text]'
  1

Prints of elements.

  $ printf '%s' '<script>if (a<b && c) d("&lt;")</script><style>a > b{content:"&lt;"}</style>' | tl select 'script, style'
  <script>if (a<b && c) d("&lt;")</script>
  <style>a > b{content:"&lt;"}</style>
  $ printf '%s' '<a href="?a=1&b=2" title="<&nbsp;>">x&nbsp;y < z</a>' | tl select a
  <a href="?a=1&amp;b=2" title="&lt;&nbsp;&gt;">x&nbsp;y &lt; z</a>
  $ printf '%s' "<p hidden><IMG SRC=a.png ALT='say \"hi\"'><br/>" | tl select p
  <p hidden=""><img src="a.png" alt="say &quot;hi&quot;"><br></p>
  $ printf '<textarea>\n\n a<b></textarea><pre>\n\nx</pre>' | tl select 'textarea, pre'
  <textarea>
   a&lt;b&gt;</textarea>
  <pre>
  x</pre>
  $ printf '<iframe><b>x</b></iframe><xmp><i></xmp><plaintext>a</p>' | tl select 'iframe, xmp, plaintext'
  <iframe><b>x</b></iframe>
  <xmp><i></xmp>
  <plaintext>a</p></plaintext>
  $ printf '<p>a<!-- b --></p>' | tl select -H body
  <p>a<!-- b --></p>
  $ printf '<A @click="f()" :Class=x x.y>z' | tl select a
  <a @click="f()" :class="x" x.y="">z</a>

Prints of pages.

  $ printf '<p>a<br>b' | tl print
  <html><head></head><body><p>a<br>b</p></body></html> (no-eol)
  $ printf '%s' "<!DOCTYPE HTML PUBLIC '-//W3C//DTD HTML 4.01//EN'><!-- c --><title>a</title><p>b" | tl print
  <!DOCTYPE html><!-- c --><html><head><title>a</title></head><body><p>b</p></body></html> (no-eol)
  $ printf '<!-- a --><p>b</p><!-- c --></body><!-- d --></html><!-- e -->' | tl print
  <!-- a --><html><head></head><body><p>b</p><!-- c --></body><!-- d --></html><!-- e --> (no-eol)
  $ tl print prices.html
  <!DOCTYPE html><html><head><title>Prices</title></head><body><table id="prices"><tbody><tr><td>Rye</td><td>3.20</td></tr><tr><td>Oat</td><td>4.50</td></tr></tbody></table></body></html> (no-eol)
  $ tl print frames.html
  <html><head></head><frameset cols="1,2"><frame src="a"><frame src="b"><noframes><p>x</noframes></frameset></html> (no-eol)
  $ printf '' | tl print
  <html><head></head><body></body></html> (no-eol)
  $ printf '<script>a<b</script><style>c>d</style><svg viewbox=0><title>e</title><path/></svg>' | tl print
  <html><head><script>a<b</script><style>c>d</style></head><body><svg viewBox="0"><title>e</title><path></path></svg></body></html> (no-eol)

With a tag on each line where white space doesn't count.

  $ tl print --pretty prices.html
  <!DOCTYPE html>
  <html>
    <head>
      <title>Prices</title>
    </head>
    <body>
      <table id="prices">
        <tbody>
          <tr>
            <td>Rye</td>
            <td>3.20</td>
          </tr>
          <tr>
            <td>Oat</td>
            <td>4.50</td>
          </tr>
        </tbody>
      </table>
    </body>
  </html>
  $ printf '<p>a <b>b</b> c<p>d<pre> e\n f</pre><script>g\nh</script><textarea>\n i</textarea>' | tl print --pretty
  <html>
    <head></head>
    <body>
      <p>a <b>b</b> c</p>
      <p>d</p>
      <pre> e
   f</pre>
      <script>g
  h</script>
      <textarea> i</textarea>
    </body>
  </html>
  $ tl print --pretty icon.html
  <!DOCTYPE html>
  <html>
    <head></head>
    <body><button class="x"><svg viewBox="0 0 9 9"><title>Close <b>x</b></title><style>.a &gt; b{}</style><linearGradient id="g"></linearGradient><use xlink:href="#i"></use></svg>ok</button></body></html> (no-eol)

A table whose cells span others has the words of a cell in each place that it covers; rows of `tfoot` stand last.

  $ printf '<table><tr><th rowspan=2>Name<th colspan=2>Price<tr><th>EUR<th>USD<tfoot><tr><td colspan=3>of May<tbody><tr><td>Rye<td>3<td>4</table>' | tl table
  Name,Price,Price
  Name,EUR,USD
  Rye,3,4
  of May,of May,of May
  $ printf '<table><tr><td rowspan=0>a<td>b<tr><td>c<td>d<tr></table>' | tl table
  a,b,
  a,c,d
  a,,

Links: each that an attribute holds, but for those in a `template`.

  $ printf '<img srcset="a.png, b.png 2x" src=c.png><a href=" /d?e&amp;f " ping="/g /h">' | tl links
  a.png
  b.png
  c.png
  /d?e&f
  /g
  /h
  $ printf '<meta http-equiv=refresh content="5; url=i.html"><video poster=j><source src=k></video><blockquote cite=l><object data=m>' | tl links
  i.html
  j
  k
  l
  m
  $ printf '<svg><use xlink:href="#n"/><image href=o.png /></svg><template><a href=p></template><p href=q>' | tl links
  #n
  o.png

JSON: names of `svg` with their namespace; where in the page a tag stands, unless it is put in.

  $ tl select --json 'svg, svg > use' icon.html
  [{"attributes":{"viewBox":"0 0 9 9"},"name":"svg","namespace":"svg","node":5,"start":31,"end":54,"text":"Close x.a > b{}"},{"attributes":{"xlink:href":"#i"},"name":"use","namespace":"svg","node":13,"start":129,"end":151,"text":""}]
  $ tl select --json --tree 'svg > title' icon.html
  [{"attributes":{},"name":"title","namespace":"svg","node":6,"start":54,"end":61,"children":[{"attributes":{},"name":null,"node":7,"start":61,"end":67,"text":"Close "},{"attributes":{},"name":"b","node":8,"start":67,"end":70,"children":[{"attributes":{},"name":null,"node":9,"start":70,"end":71,"text":"x"}]}]}]
  $ tl select --json 'tbody, tr:first-child' prices.html
  [{"attributes":{},"name":"tbody","node":7,"text":"Rye3.20Oat4.50"},{"attributes":{},"name":"tr","node":8,"start":53,"end":57,"text":"Rye3.20"}]
  $ tl select --json --tree template template.html
  [{"attributes":{"id":"row"},"name":"template","node":3,"start":15,"end":32,"children":[{"attributes":{},"name":null,"node":4,"contents":[{"attributes":{},"name":"tr","node":5,"start":32,"end":36,"children":[{"attributes":{},"name":"td","node":6,"start":36,"end":40,"children":[{"attributes":{},"name":null,"node":7,"start":40,"end":41,"text":"a"}]}]}]}]}]
  $ printf '<p>a<!-- b -->' | tl select --json --tree p
  [{"attributes":{},"name":"p","node":3,"start":0,"end":3,"children":[{"attributes":{},"name":null,"node":4,"start":3,"end":4,"text":"a"},{"attributes":{},"name":null,"node":5,"start":4,"end":14,"comment":" b "}]}]
  $ printf '<math><mi xml:lang=el>x</math>' | tl select --json mi
  [{"attributes":{"xml:lang":"el"},"name":"mi","namespace":"math","node":4,"start":6,"end":22,"text":"x"}]

Outlines.

  $ tl outline icon.html
  <!DOCTYPE html>
  html
    head
    body
      button.x
        svg
          title
            "Close"
            b
              "x"
          style
            ".a > b{}"
          linearGradient#g
          use
        "ok"
  $ tl outline template.html
  <!DOCTYPE html>
  html
    head
      template#row
        #document-fragment
          tr
            td
              "a"
    body
      p
        "b"
