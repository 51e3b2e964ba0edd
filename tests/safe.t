What `tl sanitize` prints of pages that attack a browser, and of others; `./x compare browser` hands these pages to Chromium too. Then
lists that are no policy.

What stands in these is no markup, in any case of their names.

  $ printf '<script>steal()</script>x' | tl sanitize
  x (no-eol)
  $ printf '<IMG SRC=x ONERROR="steal()"><SCRIPT>steal()</SCRIPT>' | tl sanitize
  <img> (no-eol)
  $ printf '<ScRiPt>steal()</sCrIpT>x' | tl sanitize
  x (no-eol)
  $ printf '<STYLE>p{}</STYLE><TITLE>t</TITLE><a>x</a>' | tl sanitize
  <a>x</a> (no-eol)
  $ printf '<plaintext><p title="x">a</p>' | tl sanitize
  $ printf '<b><title>x</b><img src=x onerror="steal()"></title>y' | tl sanitize
  <b>y</b> (no-eol)
  $ printf '<p><style>x</p></style><img src=x onerror="steal()">' | tl sanitize
  <p><img></p> (no-eol)
  $ printf '<script>"<p>"</script><p>x</p>' | tl sanitize
  <p>x</p> (no-eol)
  $ printf '<textarea><script>steal()</textarea></script>x' | tl sanitize
  x (no-eol)

The end of what is no markup stands in a value.

  $ printf '<style><a title="</style><img src=x onerror=1>">x</a></style>' | tl sanitize
  <img>"&gt;x (no-eol)
  $ printf '<title><p title="</title><img src=x onerror=\047steal()\047>">x</p></title>' | tl sanitize
  <img>"&gt;x<p></p> (no-eol)
  $ printf '<textarea><p title="</textarea><img src=x onerror=\047steal()\047>">x</p></textarea>' | tl sanitize
  <img>"&gt;x<p></p> (no-eol)
  $ printf '<noscript><p title="</noscript><img src=x onerror=\047steal()\047>">x</p></noscript>' | tl sanitize
  $ printf '<xmp><p title="</xmp><img src=x onerror=\047steal()\047>">x</p></xmp>' | tl sanitize
  <img>"&gt;x<p></p> (no-eol)
  $ printf '<iframe><p title="</iframe><img src=x onerror=\047steal()\047>">x</p></iframe>' | tl sanitize
  <img>"&gt;x<p></p> (no-eol)
  $ printf '<noembed><p title="</noembed><img src=x onerror=\047steal()\047>">x</p></noembed>' | tl sanitize
  <img>"&gt;x<p></p> (no-eol)
  $ printf '<noframes><p title="</noframes><img src=x onerror=\047steal()\047>">x</p></noframes>' | tl sanitize
  <img>"&gt;x<p></p> (no-eol)

Elements of other languages.

  $ printf '<SvG><p>a</p></SvG>b' | tl sanitize
  <p>a</p>b (no-eol)
  $ printf '<sVg><a href="/x">y</a></sVg>z' | tl sanitize
  z (no-eol)
  $ printf '<svg onload="steal()"></svg>x' | tl sanitize
  x (no-eol)
  $ printf '<svg/onload=steal()>x' | tl sanitize
  $ printf '<svg><style><a title="</style><img src=x onerror=\047steal()\047>">x</a></style></svg>y' | tl sanitize
  y (no-eol)
  $ printf '<svg></p><style><a id="</style><img src=1 onerror=\047steal()\047>">' | tl sanitize
  <p></p><img>"&gt; (no-eol)
  $ printf '<math><mtext><mglyph><style><a title="</style><img src=x onerror=\047steal()\047>">x</a></style></mglyph></mtext></math>y' | tl sanitize
  y (no-eol)
  $ printf '<math><annotation-xml encoding="text/html"><style><img title="</style><img src=x onerror=\047steal()\047>"></style></annotation-xml></math>' | tl sanitize
  $ printf '<math><mtext><table><mglyph><style><!--</style><img title="--&gt;&lt;img src=1 onerror=steal()&gt;">' | tl sanitize
  $ printf '<svg><title><p title="</title><img src=x onerror=\047steal()\047>">x</p></title></svg>y' | tl sanitize
  y (no-eol)
  $ printf '<svg><desc><style><p title="</style><img src=x onerror=\047steal()\047>">x</p></style></desc></svg>y' | tl sanitize
  y (no-eol)
  $ printf '<svg><![CDATA[<p title="]]><img src=x onerror=\047steal()\047>">x</p>]]></svg>y' | tl sanitize
  <img>"&gt;x<p></p>]]&gt;y (no-eol)
  $ printf '<desc><p>x</p></desc>' | tl sanitize
  <p>x</p> (no-eol)
  $ printf '<mglyph><b>x</b></mglyph>' | tl sanitize
  <b>x</b> (no-eol)

Tags that change what is around them, or load a document.

  $ printf '<table><tr><td>x</td></tr></table>' | tl sanitize
  x (no-eol)
  $ printf '<template><img src=x onerror="steal()"></template>y' | tl sanitize
  y (no-eol)
  $ printf '<select><style><p title="</style></select><img src=x onerror=\047steal()\047>">x</p></style></select>y' | tl sanitize
  <img>"&gt;x<p></p>y (no-eol)
  $ printf '<table><p>x<tr><td>y</td></tr></table>' | tl sanitize
  <p>x</p>y (no-eol)
  $ printf '<form><button formaction="javascript:steal()">x</button></form>' | tl sanitize
  x (no-eol)
  $ printf '<base href="javascript:steal()//"><a href="/x">c</a>' | tl sanitize
  <a href="/x">c</a> (no-eol)
  $ printf '<meta http-equiv="refresh" content="0;url=javascript:steal()">x' | tl sanitize
  x (no-eol)
  $ printf '<object data="javascript:steal()">x</object>' | tl sanitize
  x (no-eol)
  $ printf '<embed src="javascript:steal()">x' | tl sanitize
  x (no-eol)
  $ printf '<iframe srcdoc="<script>steal()</script>"></iframe>x' | tl sanitize
  x (no-eol)
  $ printf '<html><head><link rel="import" href="/x"></head><body onload="steal()">x</body></html>' | tl sanitize
  x (no-eol)
  $ printf '<frameset onload="steal()"><frame src="javascript:steal()"></frameset>x' | tl sanitize
  x (no-eol)
  $ printf '<image src=x onerror="steal()">' | tl sanitize
  <img> (no-eol)
  $ printf '<isindex action="javascript:steal()" type="image">x' | tl sanitize
  x (no-eol)

A scheme as it is, by character references, with controls, and in any case.

  $ printf '<a href="javascript:steal()">c</a>' | tl sanitize
  <a>c</a> (no-eol)
  $ printf '<a href="JaVaScRiPt:steal()">c</a>' | tl sanitize
  <a>c</a> (no-eol)
  $ printf '<a href="&#106;avascript:steal()">c</a>' | tl sanitize
  <a>c</a> (no-eol)
  $ printf '<a href="javascript&colon;steal()">c</a>' | tl sanitize
  <a>c</a> (no-eol)
  $ printf '<a href="java&Tab;script:steal()">c</a>' | tl sanitize
  <a>c</a> (no-eol)
  $ printf '<a href="java&NewLine;script:steal()">c</a>' | tl sanitize
  <a>c</a> (no-eol)
  $ printf '<a href="&#x6A;avascript:steal()">c</a>' | tl sanitize
  <a>c</a> (no-eol)
  $ printf '<a href="&#0000106avascript:steal()">c</a>' | tl sanitize
  <a>c</a> (no-eol)
  $ printf '<a href="java\tscript:steal()">c</a>' | tl sanitize
  <a>c</a> (no-eol)
  $ printf '<a href=" javascript:steal()">c</a>' | tl sanitize
  <a>c</a> (no-eol)
  $ printf '<a href="java\nscript:steal()">c</a>' | tl sanitize
  <a>c</a> (no-eol)
  $ printf '<a href="java\rscript:steal()">c</a>' | tl sanitize
  <a>c</a> (no-eol)
  $ printf '<a href="\001javascript:steal()">c</a>' | tl sanitize
  <a>c</a> (no-eol)
  $ printf '<a href="\177javascript:steal()">c</a>' | tl sanitize
  <a>c</a> (no-eol)

Links.

  $ printf '<a href="/x?a=1&amp;b">c</a>' | tl sanitize
  <a href="/x?a=1&amp;b">c</a> (no-eol)
  $ printf '<a href="data:text/html,<script>steal()</script>">c</a>' | tl sanitize
  <a>c</a> (no-eol)
  $ printf '<a href="vbscript:steal()">c</a>' | tl sanitize
  <a>c</a> (no-eol)
  $ printf '<a href="https:javascript:steal()">c</a>' | tl sanitize
  <a>c</a> (no-eol)
  $ printf '<a href="HTTPS://e/">c</a>' | tl sanitize
  <a href="https://e/">c</a> (no-eol)
  $ printf '<a href="https://e/\té">c</a>' | tl sanitize
  <a href="https://e/é">c</a> (no-eol)
  $ printf '<a href="https://e/é">c</a>' | tl sanitize
  <a href="https://e/é">c</a> (no-eol)
  $ printf '<a href="\n hTTp://e/\t ">c</a>' | tl sanitize
  <a href="http://e/">c</a> (no-eol)
  $ printf '<a href="HTTP&Tab;S&colon;//E/X:Y">c</a>' | tl sanitize
  <a href="https://E/X:Y">c</a> (no-eol)
  $ printf '<a href="https://e/x y">c</a>' | tl sanitize
  <a>c</a> (no-eol)
  $ printf '<a href="#<b>">c</a>' | tl sanitize
  <a href="#user-&lt;b&gt;">c</a> (no-eol)
  $ printf '<a href="#javascript:steal()">c</a>' | tl sanitize
  <a href="#user-javascript:steal()">c</a> (no-eol)
  $ printf '<img src="javascript:steal()" alt="x">' | tl sanitize
  <img alt="x"> (no-eol)
  $ printf '<q cite="javascript:steal()">c</q>' | tl sanitize
  <q>c</q> (no-eol)
  $ printf '<a href=javascript:steal()>c</a>' | tl sanitize
  <a>c</a> (no-eol)
  $ printf '<a href=\047javascript:steal()\047>c</a>' | tl sanitize
  <a>c</a> (no-eol)
  $ printf '<a href>c</a>' | tl sanitize
  <a>c</a> (no-eol)
  $ printf '<a href="">c</a>' | tl sanitize
  <a>c</a> (no-eol)

Links within the site, and those that look like it and lead to another host.

  $ printf '<a href="/">c</a>' | tl sanitize
  <a href="/">c</a> (no-eol)
  $ printf '<a href="/x//e">c</a>' | tl sanitize
  <a href="/x//e">c</a> (no-eol)
  $ printf '<a href="//e/x">c</a>' | tl sanitize
  <a>c</a> (no-eol)
  $ printf '<a href="/\\e/x">c</a>' | tl sanitize
  <a>c</a> (no-eol)
  $ printf '<a href="/&#47;e/x">c</a>' | tl sanitize
  <a>c</a> (no-eol)
  $ printf '<a href="/&sol;e/x">c</a>' | tl sanitize
  <a>c</a> (no-eol)
  $ printf '<a href="/&Tab;/e/x">c</a>' | tl sanitize
  <a>c</a> (no-eol)
  $ printf '<a href="/<e">c</a>' | tl sanitize
  <a href="/&lt;e">c</a> (no-eol)
  $ printf '<a href="/e<">c</a>' | tl sanitize
  <a href="/e&lt;">c</a> (no-eol)
  $ printf '<img src alt="x">' | tl sanitize
  <img alt="x"> (no-eol)
  $ printf '<q cite>x</q>' | tl sanitize
  <q>x</q> (no-eol)

By a policy with links to any host, by the scheme of the page.

  $ printf '<a href="//e/x">c</a>' | tl sanitize --links //
  <a href="//e/x">c</a> (no-eol)
  $ printf '<a href="///e/x">c</a>' | tl sanitize --links //
  <a href="///e/x">c</a> (no-eol)
  $ printf '<a href="/\\e/x">c</a>' | tl sanitize --links //
  <a>c</a> (no-eol)
  $ printf '<a href="/x">c</a>' | tl sanitize --links //
  <a>c</a> (no-eol)

What may end what is no markup stands in a value.

  $ printf '<p title="</noscript><img src=x onerror=steal()>">y</p>' | tl sanitize
  <p title="&lt;/noscript&gt;&lt;img src=x onerror=steal()&gt;">y</p> (no-eol)
  $ printf '<p title=\047--><b>\047>y</p>' | tl sanitize
  <p title="--&gt;&lt;b&gt;">y</p> (no-eol)
  $ printf '<p title="&lt;&amp;lt;&gt">y</p>' | tl sanitize
  <p title="&lt;&amp;lt;&gt;">y</p> (no-eol)
  $ printf '<p title="&lt<&#60<&<">y</p>' | tl sanitize
  <p title="&lt;&lt;&lt;&lt;&amp;&lt;">y</p> (no-eol)
  $ printf '<p title="é<東">y</p>' | tl sanitize
  <p title="é&lt;東">y</p> (no-eol)
  $ printf '<p title>y</p>' | tl sanitize
  <p title="">y</p> (no-eol)

Comments and doctypes, what a browser takes for their end, and what looks like them.

  $ printf '<!--x--!><img src=x onerror="steal()">-->' | tl sanitize
  <img>--&gt; (no-eol)
  $ printf '< !-- <img src=x onerror="steal()"> -->' | tl sanitize
  &lt; !-- <img> --&gt; (no-eol)
  $ printf '<!--><img src=x onerror="steal()">-->x' | tl sanitize
  <img>--&gt;x (no-eol)
  $ printf '<!---><img src=x onerror="steal()">-->x' | tl sanitize
  <img>--&gt;x (no-eol)
  $ printf '<\n!-- <img src=x onerror="steal()"> -->' | tl sanitize
  &lt;
  !-- <img> --&gt; (no-eol)
  $ printf '<p title="<!--">a</p><p title="--!><img src=x onerror=\047steal()\047>">b</p>' | tl sanitize
  <p title="&lt;!--">a</p><p title="--!&gt;&lt;img src=x onerror='steal()'&gt;">b</p> (no-eol)
  $ printf '<!x><p title="x">a</p><! <img src=x onerror="steal()">' | tl sanitize
  <p title="x">a</p> (no-eol)
  $ printf '<?x <p>y?><img src=x onerror="steal()">' | tl sanitize
  y?&gt;<img> (no-eol)
  $ printf '<!DOCTYPE html><p>x</p>' | tl sanitize
  <p>x</p> (no-eol)
  $ printf '<!doctype html SYSTEM "><img src=x onerror=steal()>"><p>x</p>' | tl sanitize
  <img>"&gt;<p>x</p> (no-eol)
  $ printf '<!--x' | tl sanitize
  $ printf '<![CDATA[<p>x</p>]]>' | tl sanitize
  x<p></p>]]&gt; (no-eol)
  $ printf '&lt;!--<b>x</b>--&gt;' | tl sanitize
  &lt;!--<b>x</b>--&gt; (no-eol)
  $ printf '<!--' | tl sanitize

Quotes, and what stands between them.

  $ printf '<p title=\047"><img src=x onerror=steal()>\047>x</p>' | tl sanitize
  <p title="&quot;&gt;&lt;img src=x onerror=steal()&gt;">x</p> (no-eol)
  $ printf '<p>a</p title="><img src=x>">' | tl sanitize
  <p>a</p> (no-eol)
  $ printf '<p title="x><img src=x onerror=\047steal()\047>' | tl sanitize
  $ printf '<p title=\047"onmouseover="steal()\047>x</p>' | tl sanitize
  <p title="&quot;onmouseover=&quot;steal()">x</p> (no-eol)
  $ printf '<p title=`"><img src=x onerror=steal()>`>x</p>' | tl sanitize
  <p title="`&quot;"><img>`&gt;x</p> (no-eol)
  $ printf '<p title="a\047b">x</p>' | tl sanitize
  <p title="a'b">x</p> (no-eol)
  $ printf '<p title=a"b>x</p>' | tl sanitize
  <p title="a&quot;b">x</p> (no-eol)
  $ printf '<img src=/ onerror="steal()" a="<p title=\047">z' | tl sanitize
  <img src="/">z (no-eol)
  $ printf '<a href="/1"><a href="/2" title="</a><img src=x onerror=\047steal()\047>">x</a></a>' | tl sanitize
  <a href="/1"></a><a href="/2" title="&lt;/a&gt;&lt;img src=x onerror='steal()'&gt;">x</a> (no-eol)

How tags begin and end, and stand in one another.

  $ printf '<p<img src=x onerror="steal()">x</p>' | tl sanitize
  x<p></p> (no-eol)
  $ printf 'a<b>c<br>d' | tl sanitize
  a<b>c<br>d</b> (no-eol)
  $ printf '<p>x<img src=x onerror="steal()">' | tl sanitize
  <p>x<img></p> (no-eol)
  $ printf '<img/src=x/onerror=steal()>' | tl sanitize
  <img> (no-eol)
  $ printf '</ <img src=x onerror="steal()">x' | tl sanitize
  x (no-eol)
  $ printf '< img src=x onerror="steal()">x' | tl sanitize
  &lt; img src=x onerror="steal()"&gt;x (no-eol)
  $ printf '<<img src=x onerror="steal()">x' | tl sanitize
  &lt;<img>x (no-eol)
  $ printf '<img\tsrc=x\tonerror=steal()>x' | tl sanitize
  <img>x (no-eol)
  $ printf '<img\014src=x\014onerror=steal()>x' | tl sanitize
  <img>x (no-eol)
  $ printf '<scr<script>ipt>steal()</script>x' | tl sanitize
  ipt&gt;steal()x (no-eol)
  $ printf '<a href="/x" / onclick="steal()">c</a>' | tl sanitize
  <a href="/x">c</a> (no-eol)
  $ printf '<b>a<i>b</b>c</i>' | tl sanitize
  <b>a<i>b</i></b><i>c</i> (no-eol)
  $ printf 'x<y>z' | tl sanitize
  xz (no-eol)
  $ printf 'a < b > c' | tl sanitize
  a &lt; b &gt; c (no-eol)
  $ printf '</p>' | tl sanitize
  <p></p> (no-eol)

Keys, in exact case, and twice in a tag.

  $ printf '<img src="https://e/x" alt="y" onerror="z">' | tl sanitize
  <img src="https://e/x" alt="y"> (no-eol)
  $ printf '<P CLASS="language-x">x</P>' | tl sanitize
  <p class="language-x">x</p> (no-eol)
  $ printf '<img src="/x" onerror = "steal()">' | tl sanitize
  <img src="/x"> (no-eol)
  $ printf '<p onclick="steal()" title="x">y</p>' | tl sanitize
  <p title="x">y</p> (no-eol)
  $ printf '<p ONCLICK="steal()" TITLE="x">y</p>' | tl sanitize
  <p title="x">y</p> (no-eol)
  $ printf '<p style="background:url(javascript:steal())">y</p>' | tl sanitize
  <p>y</p> (no-eol)
  $ printf '<p title="a" title="b">y</p>' | tl sanitize
  <p title="a">y</p> (no-eol)
  $ printf '<a href="javascript:steal()" href="/x">c</a>' | tl sanitize
  <a>c</a> (no-eol)
  $ printf '<a href="/x" href="javascript:steal()">c</a>' | tl sanitize
  <a href="/x">c</a> (no-eol)
  $ printf '<p data-x="y" is="z" srcset="/x" xlink:href="javascript:steal()">y</p>' | tl sanitize
  <p>y</p> (no-eol)
  $ printf '<img src="/x" width="1" height="2" alt="a" lowsrc="javascript:steal()">' | tl sanitize
  <img src="/x" width="1" height="2" alt="a"> (no-eol)

Names that others can refer to.

  $ printf '<p id="body" class="user-x">x</p>' | tl sanitize
  <p id="user-body">x</p> (no-eol)
  $ printf '<h2 id=usage>x</h2><a href="#usage">y</a><a href="#user-usage">z</a>' | tl sanitize
  <h2 id="user-usage">x</h2><a href="#user-usage">y</a><a href="#user-usage">z</a> (no-eol)
  $ printf '<h2 id=über>x</h2><a href="#über">y</a><sup id=fn:1>1</sup><a href="#">2</a>' | tl sanitize
  <h2 id="user-über">x</h2><a href="#user-über">y</a><sup id="user-fn:1">1</sup><a href="#">2</a> (no-eol)
  $ printf '<p aria-labelledby="a  user-b" name=c for=d headers="">x</p>' | tl sanitize --keys aria-labelledby,for,headers,name
  <p aria-labelledby="user-a  user-b" name="user-c" for="user-d" headers="">x</p> (no-eol)
  $ printf '<p id="user-x" id="body">y</p>' | tl sanitize
  <p id="user-x">y</p> (no-eol)
  $ printf '<p id="user-x y">y</p>' | tl sanitize
  <p>y</p> (no-eol)
  $ printf '<img name="body" src="/x">' | tl sanitize
  <img src="/x"> (no-eol)
  $ printf '<p id>y</p>' | tl sanitize
  <p>y</p> (no-eol)

Classes, by patterns of whole words.

  $ printf '<p class="">y</p>' | tl sanitize
  <p>y</p> (no-eol)
  $ printf '<p class="admin modal">x</p>' | tl sanitize
  <p>x</p> (no-eol)
  $ printf '<pre><code class="hljs language-c++ x">a</code></pre>' | tl sanitize
  <pre><code class="language-c++">a</code></pre> (no-eol)
  $ printf '<pre><code class=" hljs\n\tlanguage-c++  x ">a</code></pre>' | tl sanitize --classes +hljs
  <pre><code class="hljs language-c++">a</code></pre> (no-eol)
  $ printf '<pre><code class="hljs language-c++">a</code></pre>' | tl sanitize --classes +hljs
  <pre><code class="hljs language-c++">a</code></pre> (no-eol)
  $ printf '<p class="xlanguage-a language LANGUAGE-a language-">y</p>' | tl sanitize
  <p class="language-">y</p> (no-eol)
  $ printf '<p class="lang\000uage-a\033 language-&quot;&lt;">y</p>' | tl sanitize
  <p class="language-&quot;&lt;">y</p> (no-eol)
  $ printf '<p class="language-a&#0;&#27;&#13;b">y</p>' | tl sanitize
  <p class="language-a�">y</p> (no-eol)
  $ printf '<p class="a hljs">y</p>' | tl sanitize --classes hljs
  <p class="hljs">y</p> (no-eol)
  $ printf '<p class="a &#13; b&#9;*"><b class=" ">y</b>' | tl sanitize --classes '*'
  <p class="a b *"><b>y</b></p> (no-eol)
  $ printf '<p class="a">y</p>' | tl sanitize --classes ''
  <p>y</p> (no-eol)
  $ printf '<p class="language-a">y</p>' | tl sanitize --comments --keys class
  <p>y</p> (no-eol)

Another character set, byte 0, and characters beyond ASCII.

  $ printf 'x\033$By\000z' | tl sanitize
  x$Byz (no-eol)
  $ printf '<p\000 title="x">y</p>' | tl sanitize
  y<p></p> (no-eol)
  $ printf '<scr\000ipt>steal()</scr\000ipt>x' | tl sanitize
  steal()x (no-eol)
  $ printf '<img src="/x" alt="\033$@">ab \033(B<b title=" onerror=steal() ">c</b>' | tl sanitize
  <img src="/x" alt="$@">ab (B<b title=" onerror=steal() ">c</b> (no-eol)
  $ printf '<p title="\033$B">a</p>\033(B<p title=" onerror=steal() ">b</p>' | tl sanitize
  <p title="$B">a</p>(B<p title=" onerror=steal() ">b</p> (no-eol)
  $ printf 'a\000b' | tl sanitize
  ab (no-eol)
  $ printf '<p title="a\000b">c</p>' | tl sanitize
  <p title="a�b">c</p> (no-eol)
  $ printf '\000<\000p\000>x' | tl sanitize
  &lt;p&gt;x (no-eol)
  $ printf '\357\273\277x' | tl sanitize
  x (no-eol)
  $ printf 'é\342\200\250東' | tl sanitize
  é\u{2028}東 (esc) (no-eol)

Texts that are no tags.

  $ printf '<p title="{{steal()}}">{{steal()}}</p>' | tl sanitize
  <p title="{{steal()}}">{{steal()}}</p> (no-eol)
  $ printf '&lt;img src=x onerror=steal()&gt;' | tl sanitize
  &lt;img src=x onerror=steal()&gt; (no-eol)
  $ printf '<p>&lt;script&gt;steal()&lt;/script&gt;</p>' | tl sanitize
  <p>&lt;script&gt;steal()&lt;/script&gt;</p> (no-eol)
  $ printf 'a>b"c\047d&e' | tl sanitize
  a&gt;b"c'd&amp;e (no-eol)
  $ printf '<' | tl sanitize
  &lt; (no-eol)
  $ printf '' | tl sanitize

By a policy for tables and videos.

  $ echo '--tags caption,table,tbody,td,tfoot,th,thead,tr,video --keys data-x,src,id --link-keys src --links ftp:,./ --prefix v' >videos
  $ printf '<table><tr><td>x</td></tr></table>' | tl sanitize $(cat videos)
  <table><tbody><tr><td>x</td></tr></tbody></table> (no-eol)
  $ printf '<p>x</p>' | tl sanitize $(cat videos)
  x (no-eol)
  $ printf '<video src="javascript:steal()" data-x="javascript:steal()">x</video>' | tl sanitize $(cat videos)
  <video data-x="javascript:steal()">x</video> (no-eol)
  $ printf '<video src="ftp://e/x">x</video>' | tl sanitize $(cat videos)
  <video src="ftp://e/x">x</video> (no-eol)
  $ printf '<video src="./x" SRC="./y">x</video>' | tl sanitize $(cat videos)
  <video src="./x">x</video> (no-eol)
  $ printf '<video src="../x">x</video>' | tl sanitize $(cat videos)
  <video>x</video> (no-eol)
  $ printf '<video id="v1">x</video><video id="1">y</video>' | tl sanitize $(cat videos)
  <video id="v1">x</video><video id="v1">y</video> (no-eol)
  $ printf '<video class="v1">x</video>' | tl sanitize $(cat videos)
  <video>x</video> (no-eol)
  $ printf '<table> <script>steal()</script><TR><td>x' | tl sanitize $(cat videos)
  <table> <tbody><tr><td>x</td></tr></tbody></table> (no-eol)

Links beside the page, by the policy for documents; that for a blog drops them.

  $ printf '<img src=x.png>' | tl sanitize --documents
  <img src="x.png"> (no-eol)
  $ printf '<img src="a/b.png?c=d&amp;e#f">' | tl sanitize --documents
  <img src="a/b.png?c=d&amp;e#f"> (no-eol)
  $ printf '<a href="?q=a:b">x</a>' | tl sanitize --documents
  <a href="?q=a:b">x</a> (no-eol)
  $ printf '<a href="x/y:z">w</a>' | tl sanitize --documents
  <a href="x/y:z">w</a> (no-eol)
  $ printf '<a href="x/<y>">z</a>' | tl sanitize --documents
  <a href="x/&lt;y&gt;">z</a> (no-eol)
  $ printf '<a href="x:y">z</a>' | tl sanitize --documents
  <a>z</a> (no-eol)
  $ printf '<a href="javascript:x()">z</a>' | tl sanitize --documents
  <a>z</a> (no-eol)
  $ printf '<a href="javascript&colon;x()">z</a>' | tl sanitize --documents
  <a>z</a> (no-eol)
  $ printf '<a href="java&Tab;script:x()">z</a>' | tl sanitize --documents
  <a>z</a> (no-eol)
  $ printf '<a href="//host/x">y</a>' | tl sanitize --documents
  <a>y</a> (no-eol)
  $ printf '<a href="/\\host">y</a>' | tl sanitize --documents
  <a>y</a> (no-eol)
  $ printf '<a href="\\\\host/x">y</a>' | tl sanitize --documents
  <a>y</a> (no-eol)
  $ printf '<a href="/&Tab;/host">y</a>' | tl sanitize --documents
  <a>y</a> (no-eol)
  $ printf '<a href="">y</a>' | tl sanitize --documents
  <a>y</a> (no-eol)
  $ printf '<a href=" x">y</a>' | tl sanitize --documents
  <a href="x">y</a> (no-eol)
  $ printf '<img src=x.png>' | tl sanitize
  <img> (no-eol)

Links that are marked.

  $ echo '--tags a,area,img,q --keys alt,cite,class,href,id,rel,src,title --nofollow-links' >marked
  $ printf '<a href="https://e/x">y</a>' | tl sanitize $(cat marked)
  <a rel="nofollow noopener" href="https://e/x">y</a> (no-eol)
  $ printf '<a title=z href="https://e/x" class=language-y id=user-z>y</a>' | tl sanitize $(cat marked)
  <a rel="nofollow noopener" title="z" href="https://e/x" class="language-y" id="user-z">y</a> (no-eol)
  $ printf '<a rel="follow" href="/x">y</a>' | tl sanitize $(cat marked)
  <a rel="nofollow noopener" href="/x">y</a> (no-eol)
  $ printf '<a href="/x" rel>y</a>' | tl sanitize $(cat marked)
  <a rel="nofollow noopener" href="/x">y</a> (no-eol)
  $ printf '<a rel="x" href="/x" rel="y">y</a>' | tl sanitize $(cat marked)
  <a rel="nofollow noopener" href="/x">y</a> (no-eol)
  $ printf '<a href="#x">y</a>' | tl sanitize $(cat marked)
  <a rel="nofollow noopener" href="#user-x">y</a> (no-eol)
  $ printf '<a href="javascript:x()" rel="x">y</a>' | tl sanitize $(cat marked)
  <a rel="x">y</a> (no-eol)
  $ printf '<a href rel=x>y</a>' | tl sanitize $(cat marked)
  <a rel="x">y</a> (no-eol)
  $ printf '<a rel="x">y</a>' | tl sanitize $(cat marked)
  <a rel="x">y</a> (no-eol)
  $ printf '<a>y</a>' | tl sanitize $(cat marked)
  <a>y</a> (no-eol)
  $ printf '<area href="/x" alt=y>' | tl sanitize $(cat marked)
  <area rel="nofollow noopener" href="/x" alt="y"> (no-eol)
  $ printf '<img src="/x" rel=x>' | tl sanitize $(cat marked)
  <img src="/x" rel="x"> (no-eol)
  $ printf '<q cite="/x" href="/y">z</q>' | tl sanitize $(cat marked)
  <q cite="/x" href="/y">z</q> (no-eol)
  $ printf '<A HREF="/x">y</A>' | tl sanitize $(cat marked)
  <a rel="nofollow noopener" href="/x">y</a> (no-eol)

Tables and parts of documents.

  $ printf '<section><h2>x</h2><form>y</form></section>' | tl sanitize --documents
  <section><h2>x</h2>y</section> (no-eol)
  $ printf '<main><table><tr><td colspan=2>x' | tl sanitize --documents
  <main><table><tbody><tr><td colspan="2">x</td></tr></tbody></table></main> (no-eol)
  $ printf '<article><p>x</article>' | tl sanitize --documents
  <article><p>x</p></article> (no-eol)

Comments of readers.

  $ printf '<h1>x</h1><p>y<img src="https://e/x"><em>z</em></p>' | tl sanitize --comments
  x<p>y<em>z</em></p> (no-eol)
  $ printf '<a href="https://e/x" class="language-a" id="user-b">x</a>' | tl sanitize --comments
  <a href="https://e/x">x</a> (no-eol)
  $ printf '<a href="mailto:x@e">x</a>' | tl sanitize --comments
  <a>x</a> (no-eol)
  $ printf '<a href="/x">x</a>' | tl sanitize --comments
  <a>x</a> (no-eol)
  $ printf '<a href="x">x</a>' | tl sanitize --comments
  <a>x</a> (no-eol)

Tags that end others, and that may not stand in one another.

  $ printf '<p>a<p>b' | tl sanitize
  <p>a</p><p>b</p> (no-eol)
  $ printf '<ul><li>x<li>y</ul>' | tl sanitize
  <ul><li>x</li><li>y</li></ul> (no-eol)
  $ printf '<ul><li><p>x<li><p>y' | tl sanitize
  <ul><li><p>x</p></li><li><p>y</p></li></ul> (no-eol)
  $ printf '<p>a<div>b</div>c</p>' | tl sanitize
  <p>a</p><div>b</div>c<p></p> (no-eol)
  $ printf '<p><span>a<div>b</div></span></p>c' | tl sanitize
  <p><span>a</span></p><div>b</div><p></p>c (no-eol)
  $ printf '<dl><dt>a<dd>b<dt>c</dl>' | tl sanitize
  <dl><dt>a</dt><dd>b</dd><dt>c</dt></dl> (no-eol)
  $ printf '<a>x<a>y</a>z</a>' | tl sanitize
  <a>x</a><a>y</a>z (no-eol)
  $ printf '<h1>x<h2>y</h2></h1>' | tl sanitize
  <h1>x</h1><h2>y</h2> (no-eol)
  $ printf '<h1>x<p>y<h2>z' | tl sanitize
  <h1>x<p>y</p></h1><h2>z</h2> (no-eol)
  $ printf '<li>x<span><li>y</span>z' | tl sanitize
  <li>x<span></span></li><li>yz</li> (no-eol)
  $ printf '<b>1<b>2<b>3<b>4</b></b></b></b>5' | tl sanitize
  <b>1<b>2<b>3<b>4</b></b></b></b>5 (no-eol)
  $ printf '<pre>\n\nx\n</pre>' | tl sanitize
  <pre>x
  </pre> (no-eol)
  $ printf '<pre>\ré&lt;</pre>' | tl sanitize
  <pre>é&lt;</pre> (no-eol)
  $ printf '<pre>&#10;&amp;y</pre>' | tl sanitize
  <pre>&amp;y</pre> (no-eol)
  $ printf '<pre><b></b>\nx</pre>' | tl sanitize
  <pre><b></b>
  x</pre> (no-eol)

Tables and ruby.

  $ echo '--tags caption,col,colgroup,p,rb,rt,rtc,ruby,table,tbody,td,tfoot,th,thead,tr' >ruby
  $ printf '<table><tr><td>a<td>b<tr><td>c' | tl sanitize $(cat ruby)
  <table><tbody><tr><td>a</td><td>b</td></tr><tr><td>c</td></tr></tbody></table> (no-eol)
  $ printf '<table>x<tr>y<td>z</td></tr></table>w' | tl sanitize $(cat ruby)
  xy<table><tbody><tr><td>z</td></tr></tbody></table>w (no-eol)
  $ printf '<table> <tr> <td>x</td> </tr> </table>' | tl sanitize $(cat ruby)
  <table> <tbody><tr> <td>x</td> </tr> </tbody></table> (no-eol)
  $ printf '<table><caption>x<td>y' | tl sanitize $(cat ruby)
  <table><caption>x</caption><tbody><tr><td>y</td></tr></tbody></table> (no-eol)
  $ printf '<table><col><tr><td>x' | tl sanitize $(cat ruby)
  <table><colgroup><col></colgroup><tbody><tr><td>x</td></tr></tbody></table> (no-eol)
  $ printf '<p>1<table><tr><td><p>2<p>3' | tl sanitize $(cat ruby)
  <p>1</p><table><tbody><tr><td><p>2</p><p>3</p></td></tr></tbody></table> (no-eol)
  $ printf '<table><tr><td><table><tr><td>x</td></tr></table>y' | tl sanitize $(cat ruby)
  <table><tbody><tr><td><table><tbody><tr><td>x</td></tr></tbody></table>y</td></tr></tbody></table> (no-eol)
  $ printf '<table><table>x' | tl sanitize $(cat ruby)
  <table></table>x<table></table> (no-eol)
  $ printf '<tr><td>x' | tl sanitize $(cat ruby)
  x (no-eol)
  $ printf '<table><tbody><td>x</tbody><tr>' | tl sanitize $(cat ruby)
  <table><tbody><tr><td>x</td></tr></tbody><tbody><tr></tr></tbody></table> (no-eol)
  $ printf '<ruby>a<rt>b<rt>c</rt></rt></ruby>d' | tl sanitize $(cat ruby)
  <ruby>a<rt>b</rt><rt>c</rt></ruby>d (no-eol)
  $ printf '<ruby>a<rtc>b<rt>c<rb>d</ruby>' | tl sanitize $(cat ruby)
  <ruby>a<rtc>b<rt>c</rt></rtc><rb>d</rb></ruby> (no-eol)

Nothing that a browser shows of a table is lost.

  $ printf '<table><caption>a<thead><tr><th>b<tfoot><tr><td>c</table>' | tl sanitize --documents
  <table><caption>a</caption><thead><tr><th>b</th></tr></thead><tfoot><tr><td>c</td></tr></tfoot></table> (no-eol)
  $ printf '<table><form>a<tr><b>b<td>c<select><option>d</select>' | tl sanitize --documents
  a<b>b</b><table><tbody><tr><td>cd</td></tr></tbody></table> (no-eol)

As what a `div` holds, a page whose tree is out of proportion to it.

  $ python3 -c 'print("<p>" + "".join(f"<b id={it}>" for it in range(300)) + "<p>x" * 300, end="")' >wide
  $ tl sanitize wide
  tl: wide: its tree is out of proportion at byte 3809 (err)
  [2]

More tags in one another than may be open.

  $ python3 -c 'print("<div>" * 600 + "x", end="")' | tl sanitize >deep
  $ python3 -c 'print("<div>" * 400 + "x" + "</div>" * 400, end="")' | cmp - deep

Lists with one word that is refused, before a page is looked at.

  $ tl sanitize --tags p,P none
  tl: invalid tag name `P`: expected a letter a-z, then letters and digits (err)
  [2]
  $ tl sanitize --tags p,style none
  tl: a policy can't allow the element `style`: its content isn't HTML markup (err)
  [2]
  $ tl sanitize --tags form none
  tl: a policy can't allow the element `form`: it affects the page around it, or loads other content (err)
  [2]
  $ tl sanitize --keys data_x none
  tl: invalid attribute name `data_x`: expected a letter a-z, then letters and `-` (err)
  [2]
  $ tl sanitize --keys title,onclick none
  tl: a policy can't allow the attribute `onclick`: its value is a script (err)
  [2]
  $ tl sanitize --keys style none
  tl: a policy can't allow the attribute `style`: its value isn't a name, text or URL (err)
  [2]
  $ tl sanitize --keys attributionsrc none
  tl: a policy can't allow the attribute `attributionsrc`: its value isn't a name, text or URL (err)
  [2]
  $ tl sanitize --keys poster none
  tl: a policy can't allow the attribute `poster`: its value is a URL, so it has to be a link attribute too (err)
  [2]
  $ tl sanitize --links '/,/a b' none
  tl: invalid link prefix `/a b`: expected printable ASCII without spaces, `"`, `<` and `>` (err)
  [2]
  $ tl sanitize --links '#,#<' none
  tl: invalid link prefix `#<`: expected printable ASCII without spaces, `"`, `<` and `>` (err)
  [2]
  $ tl sanitize --links data: none
  tl: a policy can't allow links that begin with `data:`: such URLs are programs or documents (err)
  [2]
  $ tl sanitize --links java none
  tl: invalid link prefix `java`: expected a scheme with its `:`, or `/`, `#`, `?` or `.` first (err)
  [2]
  $ tl sanitize --classes 'a b' none
  tl: invalid class pattern `a b`: expected no spaces and no `"`, and `*` only at the end (err)
  [2]
  $ tl sanitize --classes '*,a*,a**' none
  tl: invalid class pattern `a**`: expected no spaces and no `"`, and `*` only at the end (err)
  [2]
  $ tl sanitize --prefix 1 none
  tl: invalid prefix `1`: expected a letter a-z, then letters and `-` (err)
  [2]
  $ tl sanitize --prefix '' none
  tl: invalid prefix ``: expected a letter a-z, then letters and `-` (err)
  [2]
  $ tl sanitize --keys href,rel --link-keys href,rel --nofollow-links none
  tl: a policy can't mark links with the attribute `rel`: it isn't allowed, or is a link attribute (err)
  [2]
  $ tl sanitize --tags table,tr,td none
  tl: a policy can't allow the element `table`: `tbody`, `thead` or `tfoot` has to be allowed too, or rows lose their text (err)
  [2]
  $ tl sanitize --tags table,tbody,tfoot,thead,td,th none
  tl: a policy can't allow the element `table`: `tr` has to be allowed too, or rows lose their text (err)
  [2]
  $ tl sanitize --tags table,tbody,tfoot,thead,td,tr none
  tl: a policy can't allow the element `table`: `td` or `th` has to be allowed too, or cells lose their text (err)
  [2]
  $ tl sanitize --tags table,tbody,tfoot,thead,td,th,tr none
  tl: a policy can't allow the element `table`: `caption` has to be allowed too, or captions lose their text (err)
  [2]
  $ tl sanitize --tags p,td none
  tl: a policy can't allow the element `td`: `table` has to be allowed too, as it belongs in one (err)
  [2]

Several are, and the first of them is named.

  $ tl sanitize --tags script,style none
  tl: a policy can't allow the element `script`: its content isn't HTML markup (err)
  [2]
  $ tl sanitize --tags script --keys onclick none
  tl: a policy can't allow the element `script`: its content isn't HTML markup (err)
  [2]
  $ tl sanitize --keys onclick --links java none
  tl: a policy can't allow the attribute `onclick`: its value is a script (err)
  [2]
  $ tl sanitize --classes '*a' --links java none
  tl: invalid link prefix `java`: expected a scheme with its `:`, or `/`, `#`, `?` or `.` first (err)
  [2]
  $ tl sanitize --prefix 1 --classes '*a' none
  tl: invalid class pattern `*a`: expected no spaces and no `"`, and `*` only at the end (err)
  [2]
  $ tl sanitize --links java --prefix 1 none
  tl: invalid link prefix `java`: expected a scheme with its `:`, or `/`, `#`, `?` or `.` first (err)
  [2]
  $ tl sanitize --tags script --prefix 1 none
  tl: a policy can't allow the element `script`: its content isn't HTML markup (err)
  [2]
  $ tl sanitize --prefix 1 --keys alt,cite,class,datetime,dir,height,href,id,lang,src,start,title,width --nofollow-links none
  tl: invalid prefix `1`: expected a letter a-z, then letters and `-` (err)
  [2]

What is said of each reason.

  $ tl sanitize --tags B none
  tl: invalid tag name `B`: expected a letter a-z, then letters and digits (err)
  [2]
  $ tl sanitize --tags svg none
  tl: a policy can't allow the element `svg`: its content isn't HTML markup (err)
  [2]
  $ tl sanitize --tags form none
  tl: a policy can't allow the element `form`: it affects the page around it, or loads other content (err)
  [2]
  $ tl sanitize --keys 1 none
  tl: invalid attribute name `1`: expected a letter a-z, then letters and `-` (err)
  [2]
  $ tl sanitize --keys onclick none
  tl: a policy can't allow the attribute `onclick`: its value is a script (err)
  [2]
  $ tl sanitize --keys style none
  tl: a policy can't allow the attribute `style`: its value isn't a name, text or URL (err)
  [2]
  $ tl sanitize --keys poster none
  tl: a policy can't allow the attribute `poster`: its value is a URL, so it has to be a link attribute too (err)
  [2]
  $ tl sanitize --links 'a b' none
  tl: invalid link prefix `a b`: expected printable ASCII without spaces, `"`, `<` and `>` (err)
  [2]
  $ tl sanitize --links data: none
  tl: a policy can't allow links that begin with `data:`: such URLs are programs or documents (err)
  [2]
  $ tl sanitize --links http none
  tl: invalid link prefix `http`: expected a scheme with its `:`, or `/`, `#`, `?` or `.` first (err)
  [2]
  $ tl sanitize --classes 'a b' none
  tl: invalid class pattern `a b`: expected no spaces and no `"`, and `*` only at the end (err)
  [2]
  $ tl sanitize --prefix 1 none
  tl: invalid prefix `1`: expected a letter a-z, then letters and `-` (err)
  [2]
  $ tl sanitize --link-keys cite,href,rel,src --nofollow-links none
  tl: a policy can't mark links with the attribute `rel`: it isn't allowed, or is a link attribute (err)
  [2]

What goes is told on standard error by `--removed`, each with the place of its start tag and why; what is printed stays as it is. Nothing is told of what is in an element that goes whole, nor of one that nobody wrote.

  $ printf '<p onclick=f()>a\n  <script>b</script><i>c' | tl sanitize --tags p --removed
  <p>a
    c</p> (no-eol)
  -:1:1: <p onclick>: the attribute isn't listed (err)
  -:2:3: <script>: what is in it isn't shown as markup (err)
  -:2:21: <i>: the tag isn't listed (err)
  $ printf 'é<table><td>a<a HREF=javascript:b TITLE=c>d<svg><path>' >gone.html
  $ tl sanitize --removed gone.html >/dev/null
  gone.html:1:2: <table>: the tag isn't listed (err)
  gone.html:1:9: <td>: the tag isn't listed (err)
  gone.html:1:14: <a href>: the value may not stand here (err)
  gone.html:1:44: <svg>: it is no element of HTML (err)
  $ printf '\357\273\277<p>a<object><P>b' | tl sanitize --removed
  <p>ab</p> (no-eol)
  -:1:5: <object>: the tag isn't listed (err)
  -:1:13: <p>: the tag may not stand here (err)
  $ printf '<p o\033[31mn\\=1><a\302\233\177>b' | tl sanitize --removed
  <p>b</p> (no-eol)
  -:1:1: <p o\x1b[31mn\x5c>: the attribute isn't listed (err)
  -:1:15: <a\xc2\x9b\x7f>: the tag isn't listed (err)
  $ printf '<p>a' | tl sanitize --removed
  <p>a</p> (no-eol)
  $ tl sanitize --removed gone.html none 2>&1 >/dev/null | tail -1
  tl: none: No such file or directory
  $ tl sanitize --removed --policy 2>&1 | head -1
  error: the argument '--removed' cannot be used with '--policy'
