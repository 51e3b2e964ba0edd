Selectors of CSS: which nodes they find, and what is said of a text that is none.

  $ printf '<!doctype html><ul id=l><li class="a odd">1</li><li class=b>2</li><li class="a odd">3</li><li>4</li><li class=a>5</li></ul>' >list
  $ printf '<!doctype html><div><h1>t</h1><p>a</p><!--c--><p>b</p><span>c</span><P class=x>d</P><h2></h2><p> </p><span><!--e--></span></div><div></div>' >mixed
  $ printf '<!doctype html><section id=s><div class=c><div><p lang=en>x</p><em>y</em></div></div><p lang=en-GB>z</p><div><p lang=english>w</p></div></section>' >deep
  $ printf '<!doctype html><a href="http://x.y/a.png" title="One Two">1</a><a HREF="/b.PNG" title="two">2</a><a title="">3</a><a title>4</a><a data-k="v w  x" class="é A">5</a><a rel="no-follow" lang="EN-us">6</a><a id="1a" class="x:y">7</a>' >links

Names, ids and classes. Numbers are those of nodes: texts and comments have some too.

  $ tl select -n '*' list
  1
  2
  3
  4
  5
  7
  9
  11
  13
  $ tl select -n LI list
  5
  7
  9
  11
  13
  $ tl select -n p mixed
  7
  10
  14
  17
  $ tl select -n '\70' mixed
  7
  10
  14
  17
  $ tl select -n '#l' list
  4
  $ tl select -n '#L' list
  [1]
  $ tl select -n .odd list
  5
  9
  $ tl select -n li.a.odd list
  5
  9
  $ tl select -n '.x\:y' links
  16
  $ tl select -n '#\31 a' links
  16
  $ tl select -n '#1a' links
  16
  $ tl select -n '.é' links
  12
  $ tl select -n .a links
  [1]
  $ tl select -n ol list
  [1]

Combinators.

  $ tl select -n 'section p' deep
  7
  11
  14
  $ tl select -n 'section > p' deep
  11
  $ tl select -n 'div div p' deep
  7
  $ tl select -n 'div > div > p' deep
  7
  $ tl select -n 'p em' deep
  [1]
  $ tl select -n 'p + em' deep
  9
  $ tl select -n 'div + p' deep
  11
  $ tl select -n 'div ~ div' deep
  13
  $ tl select -n 'div ~ p' deep
  11
  $ tl select -n 'p ~ div p' deep
  14
  $ tl select -n 'li + li' list
  7
  9
  11
  13
  $ tl select -n 'li ~ li ~ li' list
  9
  11
  13
  $ tl select -n '.b ~ .a' list
  9
  13
  $ tl select -n '.b + .a + li' list
  11
  $ tl select -n h1+p mixed
  7
  $ tl select -n 'h1 ~ span' mixed
  12
  19
  $ tl select -n 'p > p' mixed
  [1]
  $ tl select -n 'div + div' mixed
  21
  $ tl select -n '* > *' mixed
  2
  3
  4
  5
  7
  10
  12
  14
  16
  17
  19
  21

A part that holds nowhere.

  $ tl select -n 'ol p' deep
  [1]
  $ tl select -n 'section ol' deep
  [1]
  $ tl select -n 'ol, p' deep
  7
  11
  14
  $ tl select -n 'p:not(ol p)' deep
  7
  11
  14
  $ tl select -n 'p:not(ol)' deep
  7
  11
  14
  $ tl select -n ':is(ol, div) > p' deep
  7
  14

Lists, and pseudo-classes that hold lists.

  $ tl select -n '.b, ul' list
  4
  7
  $ tl select -n 'h1, h2, span' mixed
  5
  12
  16
  19
  $ tl select -n 'li:not(.a)' list
  7
  11
  $ tl select -n ':not(li)' list
  1
  2
  3
  4
  $ tl select -n 'li:not(.a, .b)' list
  11
  $ tl select -n 'li:not(:first-child):not(:last-child)' list
  7
  9
  11
  $ tl select -n ':not(div) > p' deep
  11
  $ tl select -n ':is(section, em)' deep
  4
  9
  $ tl select -n ':where(div, section) > p' deep
  7
  11
  14
  $ tl select -n 'div:is(.c, :last-child)' deep
  5
  6
  13
  $ tl select -n 'p:not(div > *)' deep
  11
  $ tl select -n ':is(.c > div) em' deep
  9

`:has`.

  $ tl select -n ':has(em)' deep
  1
  3
  4
  5
  6
  $ tl select -n 'div:has(> p)' deep
  6
  13
  $ tl select -n 'div:has(p + em)' deep
  5
  6
  $ tl select -n 'div:has(+ p)' deep
  5
  $ tl select -n 'p:has(~ div)' deep
  11
  $ tl select -n ':has(> div > em)' deep
  5
  $ tl select -n 'div:has(> em, > p)' deep
  6
  13
  $ tl select -n 'div:not(:has(em))' deep
  13
  $ tl select -n 'ul:has(.b)' list
  4
  $ tl select -n 'li:has(+ .b)' list
  5
  $ tl select -n 'div:not(:has(*))' mixed
  21
  $ tl select -n ':has(:has(em))' deep
  1
  3
  4
  5

Places among siblings.

  $ tl select -n li:first-child list
  5
  $ tl select -n li:last-child list
  13
  $ tl select -n :only-child list
  1
  4
  $ tl select -n p:only-child deep
  14
  $ tl select -n p:first-child mixed
  [1]
  $ tl select -n 'li:nth-child(2)' list
  7
  $ tl select -n 'li:nth-child(odd)' list
  5
  9
  13
  $ tl select -n 'li:nth-child(even)' list
  7
  11
  $ tl select -n 'li:nth-child(2n+1)' list
  5
  9
  13
  $ tl select -n 'li:nth-child(-n+3)' list
  5
  7
  9
  $ tl select -n 'li:nth-child(-2n+4)' list
  7
  11
  $ tl select -n 'li:nth-child(n+4)' list
  11
  13
  $ tl select -n 'li:nth-child(3n - 1)' list
  7
  13
  $ tl select -n 'li:nth-child(-n)' list
  [1]
  $ tl select -n 'li:nth-child(0n+4)' list
  11
  $ tl select -n 'li:nth-child(0)' list
  [1]
  $ tl select -n 'li:nth-child(n)' list
  5
  7
  9
  11
  13
  $ tl select -n 'li:nth-last-child(2)' list
  11
  $ tl select -n 'li:nth-last-child(-n+2)' list
  11
  13
  $ tl select -n 'li:nth-child(2 of .a)' list
  9
  $ tl select -n 'li:nth-child(-n+2 of .a)' list
  5
  9
  $ tl select -n 'li:nth-last-child(1 of .odd)' list
  9
  $ tl select -n ':nth-child(1 of .b, .odd)' list
  5
  $ tl select -n 'p:nth-child(3)' mixed
  10
  $ tl select -n 'p:nth-child(1 of p)' mixed
  7
  $ tl select -n 'div:nth-child(2)' mixed
  21

Places among siblings of one name.

  $ tl select -n p:first-of-type mixed
  7
  $ tl select -n p:last-of-type mixed
  17
  $ tl select -n :only-of-type mixed
  1
  2
  3
  5
  16
  $ tl select -n ':nth-of-type(2)' mixed
  10
  19
  21
  $ tl select -n 'p:nth-of-type(odd)' mixed
  7
  14
  $ tl select -n 'p:nth-of-type(-n+2)' mixed
  7
  10
  $ tl select -n 'p:nth-last-of-type(2)' mixed
  14
  $ tl select -n 'span:nth-last-of-type(1)' mixed
  19
  $ tl select -n 'li:nth-of-type(3)' list
  9
  $ tl select -n 'p.x:nth-of-type(3)' mixed
  14

What is empty, and what stands at the top.

  $ tl select -n :empty mixed
  2
  16
  19
  21
  $ tl select -n div:empty mixed
  21
  $ tl select -n :root list
  1
  $ tl select -n :root mixed
  1
  $ tl select -n :root:first-child mixed
  1
  $ tl select -n ':root > p' deep
  [1]
  $ printf '<html><p>a' | tl select ':scope > p'
  [1]
  $ printf '<html><p>a' | tl select '& > p'
  [1]
  $ tl select -n span:empty mixed
  19
  $ tl select -n p:empty mixed
  [1]

Attributes.

  $ tl select -n '[href]' links
  4
  6
  $ tl select -n '[HREF]' links
  4
  6
  $ tl select -n 'a[title]' links
  4
  6
  8
  10
  $ tl select -n '[title=two]' links
  6
  $ tl select -n '[title="Two"]' links
  [1]
  $ tl select -n '[title="two" i]' links
  6
  $ tl select -n '[title="TWO" i]' links
  6
  $ tl select -n '[title="TWO" s]' links
  [1]
  $ tl select -n '[title=""]' links
  8
  10
  $ tl select -n '[title~=Two]' links
  4
  $ tl select -n '[title~=two i]' links
  4
  6
  $ tl select -n '[title~="One Two"]' links
  [1]
  $ tl select -n '[title~=""]' links
  [1]
  $ tl select -n '[data-k~=w]' links
  12
  $ tl select -n '[data-k~=x]' links
  12
  $ tl select -n '[lang|=en]' links
  14
  $ tl select -n '[lang|=EN]' links
  14
  $ tl select -n '[lang|=en i]' links
  14
  $ tl select -n '[lang|=en]' deep
  7
  11
  $ tl select -n '[lang|="en-GB"]' deep
  11
  $ tl select -n '[rel|=no]' links
  14
  $ tl select -n '[href^=http]' links
  4
  $ tl select -n '[href^="/"]' links
  6
  $ tl select -n '[href^=""]' links
  [1]
  $ tl select -n '[href$=".png"]' links
  4
  $ tl select -n '[href$=".png" i]' links
  4
  6
  $ tl select -n '[href$=""]' links
  [1]
  $ tl select -n '[href*="x.y"]' links
  4
  $ tl select -n '[href*=""]' links
  [1]
  $ tl select -n '[title*="e t" i]' links
  4
  $ tl select -n '[title*="e t"]' links
  [1]
  $ tl select -n '[href*=PNG i]' links
  4
  6
  $ tl select -n '[id="1a"]' links
  16
  $ tl select -n '[class~=A]' links
  12
  $ tl select -n '[class]' links
  12
  16
  $ tl select -n 'a:not([title])' links
  12
  14
  16
  $ tl select -n '[id]' links
  16

By what names and values say, in pages that are read as browsers read them.

  $ printf '<p @click=a></p><p click=a></p>' | tl select -n '[\@click]'
  3
  $ printf '<p @click=a></p>' | tl select -n '[\+40click]'
  [1]
  $ printf '<p @click=a></p>' | tl select -n p
  3
  $ printf '<A HREF="?a=1&b=2"></A>' | tl select -n 'a[href="?a=1&b=2"]'
  3
  $ printf '<a href="?a=1&amp;b=2"></a>' | tl select -n '[href="?a=1&b=2"]'
  3
  $ printf '<a href="?a=1&amp;b=2"></a>' | tl select -n '[href*="&amp;"]'
  [1]
  $ printf '<a href="?a=1&amp;b=2"></a>' | tl select -n '[href$="&b=2"]'
  3
  $ printf '<a href=x></a>' | tl select -n '[href=x]'
  3
  $ printf '<p id=caf&eacute;></p>' | tl select -n '#café'
  3
  $ printf '<p id="café"></p>' | tl select -n '#café'
  3
  $ printf '<p id="a&amp;b"></p>' | tl select -n '#a\&b'
  3
  $ printf '<p id="a&amp;b"></p>' | tl select -n '#a\&amp\;b'
  [1]
  $ printf '<p id=a></p><p></p>' | tl select -n '#a'
  3
  $ printf '<p class="x a&lt;b\ty"></p><p></p>' | tl select -n '.a\<b'
  3
  $ printf '<p class="x&#32;y"></p>' | tl select -n .y
  3
  $ printf '<p class="x y"></p>' | tl select -n .y
  3
  $ printf '<p class></p>' | tl select -n '[class]'
  3
  $ printf '<command></command><fb:like></fb:like>' | tl select -n command
  3
  $ printf '<command></command><fb:like></fb:like>' | tl select -n 'fb\:like'
  4
  $ printf '<a+b></a+b><p><a+b></a+b></p>' | tl select -n 'a\+b:first-of-type'
  3
  5
  $ printf '<a+b></a+b><p></p><a+b></a+b>' | tl select -n 'a\+b ~ a\+b'
  5
  $ printf '<p>a</p><p></p>' | tl select -n p:empty
  5
  $ printf '<ul><li>1<li>2</ul>' | tl select -n 'ul > li:nth-child(2)'
  6
  $ printf '<p title="a&quot;b"></p>' | tl select -n '[title="a\"b"]'
  3
  $ printf '<p x.y=1></p>' | tl select -n '[x\.y="1"]'
  3
  $ printf '<svg><a xlink:href=x></a></svg><a href=y></a>' | tl select -n '*|a[|href]'
  5
  $ printf '<svg><a xlink:href=x></a></svg><a href=y></a>' | tl select -n '*/**/|a[*|/* a */href]'
  4
  5
  $ printf '<p class=x></p>' | tl select -n 'p./**/x:/**/empty'
  3

What is said of texts that are no selectors: each cause, and each thing to write in its place.

  $ tl select '[k' none
  tl: invalid selector: at byte 0: opened here and never closed: `[` (err)
    [k (err)
    ^ (err)
  [2]
  $ tl select 'a > ' none
  tl: invalid selector: at byte 4: expected a selector (err)
    a >\x20 (esc) (err)
        ^ (err)
  [2]
  $ tl select a..b none
  tl: invalid selector: at byte 2: expected a name, found `.` (put a value in quotes; in a name write `\` before it) (err)
    a..b (err)
      ^ (err)
  [2]
  $ tl select '[k~v]' none
  tl: invalid selector: at byte 2: expected `=`, `~=`, `|=`, `^=`, `$=`, `*=` or `]`, found `~` (err)
    [k~v] (err)
      ^ (err)
  [2]
  $ tl select '[k==v]' none
  tl: invalid selector: at byte 3: expected a value, found `=` (put the value in quotes) (err)
    [k==v] (err)
       ^ (err)
  [2]
  $ tl select '[k= ]' none
  tl: invalid selector: at byte 4: expected a value, found `]` (err)
    [k= ] (err)
        ^ (err)
  [2]
  $ tl select '[k=' none
  tl: invalid selector: at byte 0: opened here and never closed: `[` (err)
    [k= (err)
    ^ (err)
  [2]
  $ tl select '[k=v is]' none
  tl: invalid selector: at byte 5: expected the flag `i` or `s`, found `is` (err)
    [k=v is] (err)
         ^ (err)
  [2]
  $ tl select ':nth-child(a)' none
  tl: invalid selector: at byte 11: expected `an+b`, `odd` or `even`, found `a` (err)
    :nth-child(a) (err)
               ^ (err)
  [2]
  $ tl select ':nth-child(2147483648)' none
  tl: invalid selector: at byte 11: number above 2147483647: `2147483648` (err)
    :nth-child(2147483648) (err)
               ^ (err)
  [2]
  $ tl select :first-childs none
  tl: invalid selector: at byte 1: unknown pseudo-class: `first-childs` (write `\:` for a colon in a name) (err)
    :first-childs (err)
     ^ (err)
  [2]
  $ tl select :first-child-whose-name-goes-on-for-more-than-forty-bytes-é none
  tl: invalid selector: at byte 1: unknown pseudo-class: `first-child-whose-name-goes-on-for-more-than-forty-bytes-é` (write `\:` for a colon in a name) (err)
    :first-child-whose-name-goes-on-for-more-than-forty-bytes-é (err)
     ^ (err)
  [2]
  $ tl select ::before none
  tl: invalid selector: at byte 0: pseudo-elements match no element: `:` (err)
    ::before (err)
    ^ (err)
  [2]
  $ tl select '[svg|href]' none
  tl: invalid selector: at byte 4: unknown namespace prefix: `|` (write `\|` for a bar in a name) (err)
    [svg|href] (err)
        ^ (err)
  [2]
  $ tl select :not none
  tl: invalid selector: at byte 4: expected an argument in parentheses (err)
    :not (err)
        ^ (err)
  [2]
  $ tl select ':not b' none
  tl: invalid selector: at byte 4: expected an argument in parentheses, found ` ` (err)
    :not b (err)
        ^ (err)
  [2]
  $ tl select ':root(p)' none
  tl: invalid selector: at byte 5: this pseudo-class takes no argument: `(` (err)
    :root(p) (err)
         ^ (err)
  [2]
  $ tl select 'a*' none
  tl: invalid selector: at byte 1: unexpected text: `*` (err)
    a* (err)
     ^ (err)
  [2]
  $ tl select 'a é %' none
  tl: invalid selector: at byte 5: unexpected text: `%` (put a value in quotes; in a name write `\` before it) (err)
    a é % (err)
        ^ (err)
  [2]
  $ tl select '[k=v é]' none
  tl: invalid selector: at byte 5: expected the flag `i` or `s`, found `é` (err)
    [k=v é] (err)
         ^ (err)
  [2]
  $ tl select :active none
  tl: invalid selector: at byte 1: unknown pseudo-class: `active` (a parsed page has no such state) (err)
    :active (err)
     ^ (err)
  [2]
  $ tl select :focus none
  tl: invalid selector: at byte 1: unknown pseudo-class: `focus` (a parsed page has no such state) (err)
    :focus (err)
     ^ (err)
  [2]
  $ tl select :focus-visible none
  tl: invalid selector: at byte 1: unknown pseudo-class: `focus-visible` (a parsed page has no such state) (err)
    :focus-visible (err)
     ^ (err)
  [2]
  $ tl select :FOCUS-WITHIN none
  tl: invalid selector: at byte 1: unknown pseudo-class: `FOCUS-WITHIN` (a parsed page has no such state) (err)
    :FOCUS-WITHIN (err)
     ^ (err)
  [2]
  $ tl select :target none
  tl: invalid selector: at byte 1: unknown pseudo-class: `target` (a parsed page has no such state) (err)
    :target (err)
     ^ (err)
  [2]
  $ tl select :visited none
  tl: invalid selector: at byte 1: unknown pseudo-class: `visited` (a parsed page has no such state) (err)
    :visited (err)
     ^ (err)
  [2]
  $ tl select :any-link none
  tl: invalid selector: at byte 1: unknown pseudo-class: `any-link` (write `[href]`) (err)
    :any-link (err)
     ^ (err)
  [2]
  $ tl select :checked none
  tl: invalid selector: at byte 1: unknown pseudo-class: `checked` (write `[checked]`) (err)
    :checked (err)
     ^ (err)
  [2]
  $ tl select :disabled none
  tl: invalid selector: at byte 1: unknown pseudo-class: `disabled` (write `[disabled]`) (err)
    :disabled (err)
     ^ (err)
  [2]
  $ tl select :enabled none
  tl: invalid selector: at byte 1: unknown pseudo-class: `enabled` (write `:not([disabled])`) (err)
    :enabled (err)
     ^ (err)
  [2]
  $ tl select :required none
  tl: invalid selector: at byte 1: unknown pseudo-class: `required` (write `[required]`) (err)
    :required (err)
     ^ (err)
  [2]
  $ tl select ':contains(x)' none
  tl: invalid selector: at byte 1: unknown pseudo-class: `contains` (elements can't be matched by their text) (err)
    :contains(x) (err)
     ^ (err)
  [2]
  $ tl select 'a$' none
  tl: invalid selector: at byte 1: unexpected text: `$` (put a value in quotes; in a name write `\` before it) (err)
    a$ (err)
     ^ (err)
  [2]
  $ tl select a% none
  tl: invalid selector: at byte 1: unexpected text: `%` (put a value in quotes; in a name write `\` before it) (err)
    a% (err)
     ^ (err)
  [2]
  $ tl select a/b none
  tl: invalid selector: at byte 1: unexpected text: `/` (put a value in quotes; in a name write `\` before it) (err)
    a/b (err)
     ^ (err)
  [2]
  $ tl select 'a?' none
  tl: invalid selector: at byte 1: unexpected text: `?` (put a value in quotes; in a name write `\` before it) (err)
    a? (err)
     ^ (err)
  [2]
  $ tl select 'a;' none
  tl: invalid selector: at byte 1: unexpected text: `;` (put a value in quotes; in a name write `\` before it) (err)
    a; (err)
     ^ (err)
  [2]
  $ tl select '{' none
  tl: invalid selector: at byte 0: unexpected text: `{` (put a value in quotes; in a name write `\` before it) (err)
    { (err)
    ^ (err)
  [2]
  $ tl select '}' none
  tl: invalid selector: at byte 0: unexpected text: `}` (put a value in quotes; in a name write `\` before it) (err)
    } (err)
    ^ (err)
  [2]
  $ tl select a:hover none
  tl: invalid selector: at byte 2: unknown pseudo-class: `hover` (a parsed page has no such state) (err)
    a:hover (err)
      ^ (err)
  [2]
  $ tl select a:Link none
  tl: invalid selector: at byte 2: unknown pseudo-class: `Link` (write `[href]`) (err)
    a:Link (err)
      ^ (err)
  [2]
  $ tl select fb:like none
  tl: invalid selector: at byte 3: unknown pseudo-class: `like` (write `\:` for a colon in a name) (err)
    fb:like (err)
       ^ (err)
  [2]
  $ tl select '[k=v x]' none
  tl: invalid selector: at byte 5: expected the flag `i` or `s`, found `x` (err)
    [k=v x] (err)
         ^ (err)
  [2]
  $ tl select 'a!' none
  tl: invalid selector: at byte 1: unexpected text: `!` (put a value in quotes; in a name write `\` before it) (err)
    a! (err)
     ^ (err)
  [2]
  $ tl select '[@click]' none
  tl: invalid selector: at byte 1: expected a name, found `@` (put a value in quotes; in a name write `\` before it) (err)
    [@click] (err)
     ^ (err)
  [2]
  $ tl select '[src=a.png]' none
  tl: invalid selector: at byte 6: unexpected text: `.` (put a value in quotes; in a name write `\` before it) (err)
    [src=a.png] (err)
          ^ (err)
  [2]
  $ tl select '[src$=.png]' none
  tl: invalid selector: at byte 6: expected a value, found `.` (put the value in quotes) (err)
    [src$=.png] (err)
          ^ (err)
  [2]
  $ tl select '[k=]' none
  tl: invalid selector: at byte 3: expected a value, found `]` (err)
    [k=] (err)
       ^ (err)
  [2]
  $ tl select '[k!=v]' none
  tl: invalid selector: at byte 2: expected `=`, `~=`, `|=`, `^=`, `$=`, `*=` or `]`, found `!` (write `:not([key=value])`) (err)
    [k!=v] (err)
      ^ (err)
  [2]
  $ tl select 'svg|a' none
  tl: invalid selector: at byte 3: unknown namespace prefix: `|` (write `\|` for a bar in a name) (err)
    svg|a (err)
       ^ (err)
  [2]
  $ tl select p::before none
  tl: invalid selector: at byte 1: pseudo-elements match no element: `:` (err)
    p::before (err)
     ^ (err)
  [2]
  $ tl select a, none
  tl: invalid selector: at byte 2: expected a selector (err)
    a, (err)
      ^ (err)
  [2]
  $ tl select 'a:not(b' none
  tl: invalid selector: at byte 5: opened here and never closed: `(` (err)
    a:not(b (err)
         ^ (err)
  [2]
  $ tl select "$(python3 -c 'print("a:is(" * 59)')" none
  tl: invalid selector: at byte 291: selectors nested too deeply: `:` (err)
  [2]
