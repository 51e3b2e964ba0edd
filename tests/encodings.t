Which encoding a page is in, and its text. With `--strict` a page whose bytes are no UTF-8 and that says no other encoding is refused at
the first such byte; one in windows-1252 (and latin1, which is the same) has `é` for the byte `\351`.

  $ printf '' | tl text
  $ printf 'café<meta charset=latin1>' | tl text
  cafÃ© (no-eol)
  $ printf 'café<meta charset=latin1>' | tl text --encoding auto
  café (no-eol)
  $ printf '\351<meta charset=latin1>' | tl text --encoding auto
  é (no-eol)
  $ printf '\357\273\277\351<meta charset=latin1>' | tl text --strict
  tl: -: invalid UTF-8 at byte 3; --encoding names the encoding (err)
  [2]
  $ printf '\351' | tl text --strict
  tl: -: invalid UTF-8 at byte 0; --encoding names the encoding (err)
  [2]
  $ printf '\351<meta charset=latin1>' | tl text
  é (no-eol)
  $ printf '\351<META CHARSET = "Windows-1252">' | tl text
  é (no-eol)
  $ printf '\351<meta charset=\047ISO-8859-1\047>' | tl text
  é (no-eol)
  $ printf '\351<meta charset=us-ascii />' | tl text
  é (no-eol)
  $ printf '\351<meta charset=us-ascii/>' | tl text --strict
  tl: -: invalid UTF-8 at byte 0; --encoding names the encoding (err)
  [2]
  $ printf '\351<meta charset=utf-8>' | tl text --strict
  tl: -: invalid UTF-8 at byte 0; --encoding names the encoding (err)
  [2]
  $ printf '\351<meta name=x><meta charset=latin1>' | tl text
  é (no-eol)
  $ printf '\351<meta http-equiv=content-type content="text/html;charset=latin1">' | tl text
  é (no-eol)
  $ printf '\351<meta content="the charset is" charset=latin1>' | tl text
  é (no-eol)
  $ printf '\351<p charset=latin1>' | tl text --strict
  tl: -: invalid UTF-8 at byte 0; --encoding names the encoding (err)
  [2]
  $ printf '\351<meta name=x>charset=latin1' | tl text --strict
  tl: -: invalid UTF-8 at byte 0; --encoding names the encoding (err)
  [2]
  $ printf '\351<meta charset' | tl text --strict
  tl: -: invalid UTF-8 at byte 0; --encoding names the encoding (err)
  [2]
  $ printf '\351<meta charset=latin1' | tl text --strict
  tl: -: invalid UTF-8 at byte 0; --encoding names the encoding (err)
  [2]
  $ printf '\351<meta charset=latin1 <p>' | tl text
  é (no-eol)
  $ printf '\351<meta charset=utf-16>' | tl text --strict
  tl: -: invalid UTF-8 at byte 0; --encoding names the encoding (err)
  [2]
  $ printf '\351<meta charset=x-user-defined>' | tl text
  é (no-eol)
  $ printf '\351<meta charset="">' | tl text --strict
  tl: -: invalid UTF-8 at byte 0; --encoding names the encoding (err)
  [2]
  $ printf '\351<meta charset=>' | tl text --strict
  tl: -: invalid UTF-8 at byte 0; --encoding names the encoding (err)
  [2]
  $ printf '\351<meta charset=nope><meta charset=latin1>' | tl text
  é (no-eol)
  $ printf '\351<meta charset=" latin1 ">' | tl text
  é (no-eol)
  $ printf '\351<meta charset=\047\t\n\014\rlatin1\047>' | tl text
  é (no-eol)
  $ printf '\351<meta name="x>y" charset=latin1>' | tl text
  é (no-eol)
  $ printf '\351<meta/charset=latin1>' | tl text
  é (no-eol)
  $ printf '\351<meta data-charset=koi8-r charset=latin1>' | tl text
  é (no-eol)
  $ printf '\351<meta charset=latin1 charset=koi8-r>' | tl text
  é (no-eol)
  $ printf '\351<meta charset=nope charset=latin1>' | tl text --strict
  tl: -: invalid UTF-8 at byte 0; --encoding names the encoding (err)
  [2]
  $ printf '\351<metadata charset=koi8-r><meta charset=latin1>' | tl text
  é (no-eol)
  $ printf '\351<meta name=description content="charset=koi8-r is nice"><meta charset=latin1>' | tl text
  é (no-eol)
  $ printf '\351<meta http-equiv=refresh content="0; url=?charset=sjis"><meta charset=latin1>' | tl text
  é (no-eol)
  $ printf '\351<meta content="charset=latin1" http-equiv=Content-Type>' | tl text
  é (no-eol)
  $ printf '\351<meta http-equiv=content-type content="charset=koi8-r" charset=latin1>' | tl text
  é (no-eol)
  $ printf '\351<meta http-equiv=content-type content="charset charset = \047latin1\047 ">' | tl text
  é (no-eol)
  $ printf '\351<meta http-equiv=content-type content="charset=\047latin1">' | tl text --strict
  tl: -: invalid UTF-8 at byte 0; --encoding names the encoding (err)
  [2]
  $ printf '\351<meta http-equiv=content-type content=charset=latin1;x>' | tl text
  é (no-eol)
  $ printf '\351<!-- <meta charset=koi8-r> --><meta charset=latin1>' | tl text
  é (no-eol)
  $ printf '\351<!--><meta charset=latin1>-->' | tl text
  é--> (no-eol)
  $ printf '\351<!-- <meta charset=latin1>' | tl text --strict
  tl: -: invalid UTF-8 at byte 0; --encoding names the encoding (err)
  [2]
  $ printf '\351<a title="<meta charset=koi8-r>"><meta charset=latin1>' | tl text
  é (no-eol)
  $ printf '\351</a title="<meta charset=koi8-r>"><meta charset=latin1>' | tl text
  é (no-eol)
  $ printf '\351<!doctype html><?x <meta charset=koi8-r><//><<meta charset=latin1>' | tl text
  é< (no-eol)
  $ printf '<?xml version="1.0" encoding="iso-8859-1"?><p>\351' | tl text
  é (no-eol)
  $ printf '<?xml version=\0471.0\047 encoding=\047utf-8\047?><p>\351' | tl text --strict
  tl: -: invalid UTF-8 at byte 41; --encoding names the encoding (err)
  [2]
  $ printf '<?xml version="1.0" encoding="latin1"?><p>café' | tl text
  cafÃ© (no-eol)
  $ printf '\357\273\277<?xml version="1.0" encoding="latin1"?><p>\351' | tl text --strict
  tl: -: invalid UTF-8 at byte 45; --encoding names the encoding (err)
  [2]
  $ printf '<?xml encoding\000\013 = \t\047latin1\047?>\351' | tl text
  é (no-eol)
  $ printf '<?xml encoding=\047latin1\047>\351' | tl text
  é (no-eol)
  $ printf '<?xml-stylesheet encoding=\047latin1\047>\351' | tl text
  é (no-eol)
  $ printf '<?xml version=\0471.0\047?><p encoding=\047latin1\047>\351' | tl text
  é (no-eol)
  $ printf '<?xml coding=\047koi8-r\047 encoding=\047latin1\047?>\351' | tl text
  é (no-eol)
  $ printf '<?xml version=\0471.0\047 encoding=\047utf-16\047?>\351' | tl text --strict
  tl: -: invalid UTF-8 at byte 39; --encoding names the encoding (err)
  [2]
  $ printf '<?xml version=\0471.0\047 encoding=\047nope\047?>\351' | tl text --strict
  tl: -: invalid UTF-8 at byte 37; --encoding names the encoding (err)
  [2]
  $ printf '<?xml version=\0471.0\047 encoding=\047\047?>\351' | tl text --strict
  tl: -: invalid UTF-8 at byte 33; --encoding names the encoding (err)
  [2]
  $ printf '<?xml version=\0471.0\047 encoding=\047 latin1\047?>\351' | tl text --strict
  tl: -: invalid UTF-8 at byte 40; --encoding names the encoding (err)
  [2]
  $ printf '<?xml version=\0471.0\047 encoding=\047latin1\n\047?>\351' | tl text --strict
  tl: -: invalid UTF-8 at byte 40; --encoding names the encoding (err)
  [2]
  $ printf '<?xml version=\0471.0\047 encoding=\047latin1\000\047?>\351' | tl text --strict
  tl: -: invalid UTF-8 at byte 40; --encoding names the encoding (err)
  [2]
  $ printf '<?xml version=\0471.0\047 encoding=latin1?>\351' | tl text --strict
  tl: -: invalid UTF-8 at byte 37; --encoding names the encoding (err)
  [2]
  $ printf '<?xml version=\0471.0\047 encoding=\047latin1"?>\351' | tl text --strict
  tl: -: invalid UTF-8 at byte 39; --encoding names the encoding (err)
  [2]
  $ printf '<?xml version=\0471.0\047 encoding \047latin1\047?>\351' | tl text --strict
  tl: -: invalid UTF-8 at byte 39; --encoding names the encoding (err)
  [2]
  $ printf '<?xml version=\0471.0\047 encoding\240=\047latin1\047?>\351' | tl text --strict
  tl: -: invalid UTF-8 at byte 28; --encoding names the encoding (err)
  [2]
  $ printf '<?xml version=\0471.0\047 encoding: encoding=\047latin1\047?>\351' | tl text --strict
  tl: -: invalid UTF-8 at byte 49; --encoding names the encoding (err)
  [2]
  $ printf '<?xml version=\0471.0\047 Encoding=\047latin1\047?>\351' | tl text --strict
  tl: -: invalid UTF-8 at byte 39; --encoding names the encoding (err)
  [2]
  $ printf '<?XML version=\0471.0\047 encoding=\047latin1\047?>\351' | tl text --strict
  tl: -: invalid UTF-8 at byte 39; --encoding names the encoding (err)
  [2]
  $ printf '<? xml version=\0471.0\047 encoding=\047latin1\047?>\351' | tl text --strict
  tl: -: invalid UTF-8 at byte 40; --encoding names the encoding (err)
  [2]
  $ printf '\n<?xml version=\0471.0\047 encoding=\047latin1\047?>\351' | tl text --strict
  tl: -: invalid UTF-8 at byte 40; --encoding names the encoding (err)
  [2]
  $ printf '<?xml version=\0471.0\047 encoding=\047latin1\047?\351' | tl text --strict
  tl: -: invalid UTF-8 at byte 38; --encoding names the encoding (err)
  [2]
  $ printf '<?xml version=\0471.0\047 encoding\351>' | tl text --strict
  tl: -: invalid UTF-8 at byte 28; --encoding names the encoding (err)
  [2]
  $ printf '<?xml \351>encoding' | tl text --strict
  tl: -: invalid UTF-8 at byte 6; --encoding names the encoding (err)
  [2]
  $ printf '<?xml \351>encoding=' | tl text --strict
  tl: -: invalid UTF-8 at byte 6; --encoding names the encoding (err)
  [2]
  $ printf '<?xml version=\0471.0\047 encoding=\047koi8-r\047?><meta charset=latin1>\351' | tl text
  é (no-eol)
  $ printf '<?xml version=\0471.0\047 encoding=\047koi8-r\047?><meta charset=utf-8>\351' | tl text --strict
  tl: -: invalid UTF-8 at byte 59; --encoding names the encoding (err)
  [2]
  $ printf '<?xml version=\0471.0\047 encoding=\047latin1\047?><meta charset=nope>\351' | tl text
  é (no-eol)
  $ printf '<?xml version=\0471.0\047 encoding=\047latin1\047?><!--<meta charset=koi8-r>\351' | tl text
  $ printf '<\000?\000x' | tl text
  <?x (no-eol)
  $ printf '<\000?\000X\000' | tl text
  <?X (no-eol)
  $ printf '\n\000<\000?\000x\000' | tl text
  <?x (no-eol)
  $ printf '\357\273\277<\000?\000x\000' | tl text
  <?x (no-eol)

Pages in encodings of several bytes, by their labels. A byte that goes on with no character is an error, behind which it is read again if
it is ASCII.

  $ printf '\203e\203X\203g<meta charset=Shift_JIS>' | tl text
  テスト (no-eol)
  $ printf '\261\262\372@<meta charset=sjis>' | tl text
  ｱｲⅰ (no-eol)
  $ printf '\307\321\261\271\276\356<meta charset=euc-kr><meta charset=latin1>' | tl text
  한국어 (no-eol)
  $ printf '\214c\271\346<meta charset=" windows-949\n">' | tl text
  똠방 (no-eol)
  $ printf '\306\374\313\334<meta charset=euc-jp>' | tl text
  日本 (no-eol)
  $ printf '\216\261\217\260\241\260\241<meta charset=x-euc-jp>' | tl text
  ｱ丂亜 (no-eol)
  $ printf '\270\325\305\347<meta charset=nope><meta charset=big5>' | tl text
  試驗 (no-eol)
  $ printf '\210b\210\245\207@<meta charset=big5-hkscs>' | tl text
  Ê̄ê̌䏰 (no-eol)
  $ printf '\312\324\321\351<meta charset=" gbk\n">' | tl text
  试验 (no-eol)
  $ printf '\200\2010\2046\2200\2010<meta charset=gb18030>' | tl text
  €¥𐀀 (no-eol)
  $ printf '\033$BF|K\134\033(B<meta charset=iso-2022-jp>' | tl text
  日本 (no-eol)
  $ printf '\033(J\134~\033(I1\033$B0!\033(B~<meta charset=csiso2022jp>' | tl text
  ¥‾ｱ亜~ (no-eol)
  $ printf 'a\203<b>c\201\377<meta charset=sjis>' | tl text
  a�c� (no-eol)
  $ printf '\2010\201a\2010<meta charset=gbk>' | tl text
  �0乤�0 (no-eol)
  $ printf '\217\260a\216\376b<meta charset=euc-jp>' | tl text
  �a�b (no-eol)
  $ printf '\033$B0\033(Ba\033(B\033(Bb\033(Zc<meta charset=iso-2022-jp>' | tl text
  �a�b�(Zc (no-eol)
  $ printf '<meta charset=iso-2022-jp>\033(I1\033$' | tl text
  ｱ�､ (no-eol)
  $ printf 'a\201\377<meta charset=sjis>' | tl text --strict
  tl: -: invalid byte sequence at byte 1; --encoding names the encoding (err)
  [2]
  $ printf '<meta charset=gb18030>\2010\201' | tl text --strict
  tl: -: invalid byte sequence at byte 22; --encoding names the encoding (err)
  [2]

Other encodings, and UTF-16, by its mark or its declaration.

  $ printf '\351<meta charset=koi8-r><meta charset=latin1>' | tl text
  И (no-eol)
  $ printf '\360<meta charset=iso-8859-9>' | tl text
  ğ (no-eol)
  $ printf '\244<meta charset=iso_8859-15>' | tl text
  € (no-eol)
  $ printf '\351<meta charset=koi8-u><meta charset=latin1>' | tl text
  И (no-eol)
  $ printf '\351<meta charset=utf-16be><meta charset=latin1>' | tl text --strict
  tl: -: invalid UTF-8 at byte 0; --encoding names the encoding (err)
  [2]
  $ printf '\351<meta http-equiv=content-type content="text/html; charset=iso-8859-2">' | tl text
  é (no-eol)
  $ printf '<?xml version=\0471.0\047 encoding=\047x-user-defined\047?>\351' | tl text | od -An -tx1
   ef 9f a9
  $ printf '\376\377\000<' | tl text
  < (no-eol)
  $ printf '\377\376<\000' | tl text
  < (no-eol)
  $ printf '<\000?\000x\000m\000l\000 \000' | tl text
  $ printf '\000<\000?\000x\000m\000l\000 ' | tl text
  $ printf '<\000?\000x\000\351<meta charset=latin1>' | tl text

The labels are those of the standard.

  $ printf 'caf\303\251' | tl text --encoding unicode-1-1-utf-8
  café (no-eol)
  $ printf 'caf\303\251' | tl text --encoding unicode11utf8
  café (no-eol)
  $ printf 'caf\303\251' | tl text --encoding unicode20utf8
  café (no-eol)
  $ printf 'caf\303\251' | tl text --encoding utf-8
  café (no-eol)
  $ printf 'caf\303\251' | tl text --encoding UTF8
  café (no-eol)
  $ printf 'caf\303\251' | tl text --encoding x-unicode20utf8
  café (no-eol)
  $ printf 'caf\303\251' | tl text --encoding ansi_x3.4-1968
  cafÃ© (no-eol)
  $ printf 'caf\303\251' | tl text --encoding ascii
  cafÃ© (no-eol)
  $ printf 'caf\303\251' | tl text --encoding cp1252
  cafÃ© (no-eol)
  $ printf 'caf\303\251' | tl text --encoding cp819
  cafÃ© (no-eol)
  $ printf 'caf\303\251' | tl text --encoding csisolatin1
  cafÃ© (no-eol)
  $ printf 'caf\303\251' | tl text --encoding ibm819
  cafÃ© (no-eol)
  $ printf 'caf\303\251' | tl text --encoding ISO-8859-1
  cafÃ© (no-eol)
  $ printf 'caf\303\251' | tl text --encoding iso-ir-100
  cafÃ© (no-eol)
  $ printf 'caf\303\251' | tl text --encoding iso8859-1
  cafÃ© (no-eol)
  $ printf 'caf\303\251' | tl text --encoding iso88591
  cafÃ© (no-eol)
  $ printf 'caf\303\251' | tl text --encoding iso_8859-1
  cafÃ© (no-eol)
  $ printf 'caf\303\251' | tl text --encoding iso_8859-1:1987
  cafÃ© (no-eol)
  $ printf 'caf\303\251' | tl text --encoding l1
  cafÃ© (no-eol)
  $ printf 'caf\303\251' | tl text --encoding Latin1
  cafÃ© (no-eol)
  $ printf 'caf\303\251' | tl text --encoding "$(printf ' latin1\t')"
  cafÃ© (no-eol)
  $ printf 'caf\303\251' | tl text --encoding us-ascii
  cafÃ© (no-eol)
  $ printf 'caf\303\251' | tl text --encoding windows-1252
  cafÃ© (no-eol)
  $ printf 'caf\303\251' | tl text --encoding x-cp1252
  cafÃ© (no-eol)
  $ printf 'caf\303\251' | tl text --encoding x-user-defined | od -An -tx1
   63 61 66 ef 9f 83 ef 9e a9
  $ printf 'caf\303\251' | tl text --encoding iso-8859-15
  cafÃ© (no-eol)
  $ printf 'caf\303\251' | tl text --encoding utf-16
  慣썦� (no-eol)
  $ printf 'caf\303\251' | tl text --encoding utf-16be
  捡曃� (no-eol)
  $ printf 'caf\303\251' | tl text --encoding latin2
  cafĂŠ (no-eol)
  $ printf 'caf\303\251' | tl text --encoding hz-gb-2312
  � (no-eol)
  $ printf 'caf\303\251' | tl text --encoding gbk
  caf茅 (no-eol)
  $ printf 'caf\303\251' | tl text --encoding Shift_JIS
  cafﾃｩ (no-eol)
  $ printf 'caf\303\251' | tl text --encoding utf-7
  tl: unknown encoding: utf-7 (err)
  [2]
  $ printf 'caf\303\251' | tl text --encoding ''
  tl: unknown encoding:\x20 (esc) (err)
  [2]

Bytes, and the text that they stand for.

  $ printf '' | tl text --encoding utf-8
  $ printf '\357\273\277café' | tl text --encoding utf-8
  café (no-eol)
  $ printf 'caf\351' | tl text --encoding windows-1252
  café (no-eol)
  $ head -c 1000000 /dev/zero | tr '\0' '\351' | tl text --encoding windows-1252 | wc -c
  2000000
  $ printf 'café' | tl text --encoding windows-1252
  cafÃ© (no-eol)
  $ printf '\200\202\203\204\205\206\207\210\211\212\213\214\216\221\222\223\224\225\226\227\230\231\232\233\234\236\237' | tl text --encoding windows-1252
  €‚ƒ„…†‡ˆ‰Š‹ŒŽ‘’“”•–—˜™š›œžŸ (no-eol)
  $ printf '\000\177\201\215\217\220\235\240\377' | tl text --encoding windows-1252
  \x7f\x81\x8d\x8f\x90\x9d\xa0ÿ (esc) (no-eol)
  $ printf 'caf\351' | tl text --strict --encoding utf-8
  tl: -: invalid UTF-8 at byte 3 (err)
  [2]
  $ printf 'caf\351' | tl text --encoding utf-8
  caf� (no-eol)

Each single-byte encoding, by the words of its letters from \340 on; `\241` and `\245` too, where an index may have none.

  $ printf '\241\245\340\341\342\343\344\345\346\347\350\351\352\353\354\355\356\357' | tl text --encoding IBM866
  берстуфхцчшщъыьэюя (no-eol)
  $ printf '\241\245\340\341\342\343\344\345\346\347\350\351\352\353\354\355\356\357' | tl text --encoding ISO-8859-2
  ĄĽŕáâăäĺćçčéęëěíîď (no-eol)
  $ printf '\241\245\340\341\342\343\344\345\346\347\350\351\352\353\354\355\356\357' | tl text --encoding ISO-8859-3
  Ħ�àáâ�äċĉçèéêëìíîï (no-eol)
  $ printf '\241\245\340\341\342\343\344\345\346\347\350\351\352\353\354\355\356\357' | tl text --encoding ISO-8859-4
  ĄĨāáâãäåæįčéęëėíîī (no-eol)
  $ printf '\241\245\340\341\342\343\344\345\346\347\350\351\352\353\354\355\356\357' | tl text --encoding ISO-8859-5
  ЁЅрстуфхцчшщъыьэюя (no-eol)
  $ printf '\241\245\340\341\342\343\344\345\346\347\350\351\352\353\354\355\356\357' | tl text --encoding ISO-8859-6
  ��ـفقكلمنهوىيًٌٍَُ (no-eol)
  $ printf '\241\245\340\341\342\343\344\345\346\347\350\351\352\353\354\355\356\357' | tl text --encoding ISO-8859-7
  ‘₯ΰαβγδεζηθικλμνξο (no-eol)
  $ printf '\241\245\340\341\342\343\344\345\346\347\350\351\352\353\354\355\356\357' | tl text --encoding ISO-8859-8
  �¥אבגדהוזחטיךכלםמן (no-eol)
  $ printf '\241\245\340\341\342\343\344\345\346\347\350\351\352\353\354\355\356\357' | tl text --encoding ISO-8859-8-I
  �¥אבגדהוזחטיךכלםמן (no-eol)
  $ printf '\241\245\340\341\342\343\344\345\346\347\350\351\352\353\354\355\356\357' | tl text --encoding ISO-8859-10
  ĄĨāáâãäåæįčéęëėíîï (no-eol)
  $ printf '\241\245\340\341\342\343\344\345\346\347\350\351\352\353\354\355\356\357' | tl text --encoding ISO-8859-13
  ”„ąįāćäåęēčéźėģķīļ (no-eol)
  $ printf '\241\245\340\341\342\343\344\345\346\347\350\351\352\353\354\355\356\357' | tl text --encoding ISO-8859-14
  Ḃċàáâãäåæçèéêëìíîï (no-eol)
  $ printf '\241\245\340\341\342\343\344\345\346\347\350\351\352\353\354\355\356\357' | tl text --encoding ISO-8859-15
  ¡¥àáâãäåæçèéêëìíîï (no-eol)
  $ printf '\241\245\340\341\342\343\344\345\346\347\350\351\352\353\354\355\356\357' | tl text --encoding ISO-8859-16
  Ą„àáâăäćæçèéêëìíîï (no-eol)
  $ printf '\241\245\340\341\342\343\344\345\346\347\350\351\352\353\354\355\356\357' | tl text --encoding KOI8-R
  ║╔ЮАБЦДЕФГХИЙКЛМНО (no-eol)
  $ printf '\241\245\340\341\342\343\344\345\346\347\350\351\352\353\354\355\356\357' | tl text --encoding KOI8-U
  ║╔ЮАБЦДЕФГХИЙКЛМНО (no-eol)
  $ printf '\241\245\340\341\342\343\344\345\346\347\350\351\352\353\354\355\356\357' | tl text --encoding macintosh
  °•‡·‚„‰ÂÊÁËÈÍÎÏÌÓÔ (no-eol)
  $ printf '\241\245\340\341\342\343\344\345\346\347\350\351\352\353\354\355\356\357' | tl text --encoding windows-874
  กฅเแโใไๅๆ็่้๊๋์ํ๎๏ (no-eol)
  $ printf '\241\245\340\341\342\343\344\345\346\347\350\351\352\353\354\355\356\357' | tl text --encoding windows-1250
  ˇĄŕáâăäĺćçčéęëěíîď (no-eol)
  $ printf '\241\245\340\341\342\343\344\345\346\347\350\351\352\353\354\355\356\357' | tl text --encoding windows-1251
  ЎҐабвгдежзийклмноп (no-eol)
  $ printf '\241\245\340\341\342\343\344\345\346\347\350\351\352\353\354\355\356\357' | tl text --encoding windows-1252
  ¡¥àáâãäåæçèéêëìíîï (no-eol)
  $ printf '\241\245\340\341\342\343\344\345\346\347\350\351\352\353\354\355\356\357' | tl text --encoding windows-1253
  ΅¥ΰαβγδεζηθικλμνξο (no-eol)
  $ printf '\241\245\340\341\342\343\344\345\346\347\350\351\352\353\354\355\356\357' | tl text --encoding windows-1254
  ¡¥àáâãäåæçèéêëìíîï (no-eol)
  $ printf '\241\245\340\341\342\343\344\345\346\347\350\351\352\353\354\355\356\357' | tl text --encoding windows-1255
  ¡¥אבגדהוזחטיךכלםמן (no-eol)
  $ printf '\241\245\340\341\342\343\344\345\346\347\350\351\352\353\354\355\356\357' | tl text --encoding windows-1256
  ،¥àلâمنهوçèéêëىيîï (no-eol)
  $ printf '\241\245\340\341\342\343\344\345\346\347\350\351\352\353\354\355\356\357' | tl text --encoding windows-1257
  ��ąįāćäåęēčéźėģķīļ (no-eol)
  $ printf '\241\245\340\341\342\343\344\345\346\347\350\351\352\353\354\355\356\357' | tl text --encoding windows-1258
  ¡¥àáâăäåæçèéêë́íîï (no-eol)
  $ printf '\241\245\340\341\342\343\344\345\346\347\350\351\352\353\354\355\356\357' | tl text --encoding x-mac-cyrillic
  °•абвгдежзийклмноп (no-eol)

A byte-order mark counts before `--encoding` and before what a page says.

  $ printf '\357\273\277caf\303\251' | tl text --encoding latin1
  café (no-eol)
  $ printf '\376\377\000c\000a\000f\000\351' | tl text --encoding utf-8
  café (no-eol)
  $ printf '\377\376c\000a\000f\000\351\000' | tl text --encoding utf-16be
  café (no-eol)
  $ printf '\376\377\000<\000m\000e\000t\000a\000 \000c\000h\000a\000r\000s\000e\000t\000=\000l\0001\000>\000\351' | tl text
  é (no-eol)
  $ printf '\357\273\277<meta charset=latin1>\303\251\351' | tl text
  é� (no-eol)

Bytes that are wrong are read as U+FFFD: of UTF-8 each longest run that begins a character, and each other byte.

  $ printf 'a\377b' | tl text
  a�b (no-eol)
  $ printf 'a\360\237\230b' | tl text
  a�b (no-eol)
  $ printf 'a\300\200b' | tl text
  a��b (no-eol)
  $ printf 'a\355\240\200b' | tl text
  a���b (no-eol)
  $ printf 'a\342\202' | tl text
  a� (no-eol)
  $ printf '<p class=\377>a\377' | tl select p
  <p class="�">a�</p>
  $ printf 'a\252b' | tl text --encoding windows-1253
  a�b (no-eol)
  $ printf '\376\377\330\075\336\000\330\075\000a\336\000\000b\330\075' | tl text
  😀�a�b� (no-eol)
  $ printf '\376\377\000a\000' | tl text
  a� (no-eol)
  $ printf '\377' >wrong.html
  $ tl select body wrong.html
  <body>�</body>
  $ tl text -w wrong.html
  �
  $ tl print wrong.html
  <html><head></head><body>�</body></html> (no-eol)
  $ tl outline wrong.html
  html
    head
    body
      "�"
  $ tl sanitize wrong.html
  � (no-eol)
  $ printf '<a href=\377><table><tr><td>\376' >wrong.html
  $ tl links wrong.html
  �
  $ tl table wrong.html
  �

With `--strict` a page with such bytes is refused, and what is wrong said by its place.

  $ tl links --strict wrong.html
  tl: wrong.html: invalid UTF-8 at byte 8; --encoding names the encoding (err)
  [2]
  $ tl table --strict wrong.html
  tl: wrong.html: invalid UTF-8 at byte 8; --encoding names the encoding (err)
  [2]
  $ tl outline --strict --encoding utf-8 wrong.html
  tl: wrong.html: invalid UTF-8 at byte 8 (err)
  [2]
  $ printf 'a\252b' | tl text --strict --encoding windows-1253
  tl: -: invalid byte sequence at byte 1 (err)
  [2]
  $ printf '<meta charset=windows-1253>a\252b' | tl text --strict
  tl: -: invalid byte sequence at byte 28; --encoding names the encoding (err)
  [2]
  $ printf '\376\377\000a\330\075\000a' | tl text --strict
  tl: -: invalid byte sequence at byte 4; --encoding names the encoding (err)
  [2]
  $ printf '\376\377\000a\336\000\330\075' | tl text --strict
  tl: -: invalid byte sequence at byte 4; --encoding names the encoding (err)
  [2]
  $ printf '\376\377\000a\330\075' | tl text --strict
  tl: -: invalid byte sequence at byte 4; --encoding names the encoding (err)
  [2]
  $ printf '\376\377\000a\000' | tl text --strict
  tl: -: invalid byte sequence at byte 4; --encoding names the encoding (err)
  [2]
  $ printf '\376\377\330\075\336\000\377\375' | tl text --strict
  😀� (no-eol)
  $ printf 'caf\351' | tl text --strict --encoding x-user-defined | od -An -tx1
   63 61 66 ef 9f a9
  $ printf 'a' | tl text --strict --encoding replacement
  tl: -: invalid byte sequence at byte 0 (err)
  [2]
  $ printf '' | tl text --strict --encoding replacement
  $ printf 'caf\303\251' | tl text --strict
  café (no-eol)

Edits are in the page's own encoding, and each other byte stays. A reference stands for a character that it lacks, where the page is read
as the same tree by it. A page with bytes that are wrong isn't changed.

  $ printf '<meta charset=latin1><p>caf\351\n' >latin.html
  $ tl set -i p title 'é' latin.html
  $ LC_ALL=C sed -n l latin.html
  <meta charset=latin1><p title="\351">caf\351$
  $ tl set -i p title 'Łódź' latin.html
  $ LC_ALL=C sed -n l latin.html
  <meta charset=latin1><p title="&#321;\363d&#378;">caf\351$
  $ tl append p ' €Ł' latin.html | LC_ALL=C sed -n l
  <meta charset=latin1><p title="&#321;\363d&#378;">caf\351$
   \200&#321;$
  $ tl before --html p '<b>Ł</b>' latin.html | LC_ALL=C sed -n l
  <meta charset=latin1><b>&#321;</b><p title="&#321;\363d&#378;">caf\
  \351$
  $ tl before --html p '<!--Ł-->' latin.html
  tl: latin.html: windows-1252 has no 'Ł', and no character reference can be used there (err)
  [2]
  $ tl before --html p '<script>"Ł"</script>' latin.html
  tl: latin.html: windows-1252 has no 'Ł', and no character reference can be used there (err)
  [2]
  $ tl before --html p '<title>Ł</title>' latin.html | LC_ALL=C sed -n l
  <meta charset=latin1><title>&#321;</title><p title="&#321;\363d&#378;\
  ">caf\351$
  tl: latin.html: browsers build another tree than is meant by the edit that begins at line 1, column 22 (err)
  $ tl set -i p title 'Łódź' latin.html
  $ tl set --dry-run p title x latin.html
  latin.html:1:22
  $ printf '<p>\351' | tl set --encoding koi8-r p k 'я' | LC_ALL=C sed -n l
  <p k="\321">\351$
  $ printf '<p>\351' | tl set --encoding nope p k v
  tl: unknown encoding: nope (err)
  [2]
  $ printf '\377\376<\000p\000>\000\351\000' | tl set p k '😀' | od -An -tx1
   ff fe 3c 00 70 00 20 00 6b 00 3d 00 22 00 3d d8
   00 de 22 00 3e 00 e9 00
  $ printf '\376\377\000<\000p\000>\000\351' | tl remove p | od -An -tx1
   fe ff
  $ printf '<\000?\000x\000>\000<\000p\000>\000' | tl set p k v | od -An -tx1
   3c 00 3f 00 78 00 3e 00 3c 00 70 00 20 00 6b 00
   3d 00 22 00 76 00 22 00 3e 00
  $ printf '\357\273\277<p>\303\251' | tl set p k 'é'
  \u{feff}<p k="é">é (esc) (no-eol)
  $ printf '<meta charset=x-user-defined><p>' | tl set p k 'é' | LC_ALL=C sed -n l
  <meta charset=x-user-defined><p k="\351">$
  $ printf '<p>\351' | tl set --encoding x-user-defined p k v | LC_ALL=C sed -n l
  <p k="v">\351$
  $ printf '<meta charset=sjis><p>a' | tl set p k 'テ'
  <meta charset=sjis><p k="&#12486;">a (no-eol)
  $ printf '<meta charset=sjis><p>\203e' | tl set p k v
  tl: -: pages in Shift_JIS can't be edited; convert them: iconv -f Shift_JIS -t UTF-8 (err)
  [2]
  $ printf '<meta charset=gbk><p>\312\324' | tl set --encoding auto p k v
  tl: -: pages in GBK can't be edited; convert them: iconv -f GBK -t UTF-8 (err)
  [2]
  $ printf '<meta charset=iso-2022-jp><p>a' | tl set p k v
  tl: -: pages in ISO-2022-JP can't be edited; convert them: iconv -f ISO-2022-JP -t UTF-8 (err)
  [2]
  $ printf '<p>a' | tl set --encoding replacement p k v
  tl: -: pages in this encoding can't be edited (err)
  [2]
  $ printf '<meta charset=latin1><p>café' | tl set p k 'é' | LC_ALL=C sed -n l
  <meta charset=latin1><p k="\351">caf\303\251$
  $ printf '<meta charset=latin1><p>café' | tl set --encoding auto p k 'é'
  <meta charset=latin1><p k="é">café (no-eol)
  $ printf '<meta charset=latin1><p>a' | tl set --encoding auto p k 'é'
  tl: -: the new text isn't ASCII, and the page declares another encoding than UTF-8 (err)
  [2]
  $ printf '<p>\377' | tl set p k v | LC_ALL=C sed -n l
  <p k="v">\377$
  $ printf '<p>\377<b>\303\251\303</b>\360\237\230<i>\342\202</i>' | tl set b k 'é' | LC_ALL=C sed -n l
  <p>\377<b k="\303\251">\303\251\303</b>\360\237\230<i>\342\202</i>$
  $ printf '<p>\342\202<b>\377</b>\300' | tl remove b | LC_ALL=C sed -n l
  <p>\342\202\300$
  $ printf '<p>\342\202<b>x</b>\254' | tl remove b
  tl: -: invalid bytes would be read otherwise after this edit; tl text --strict says where (err)
  [2]
  $ printf '<p>\342\202<b>x</b>\254' | tl unwrap b | LC_ALL=C sed -n l
  <p>\342\202x\254$
  $ printf '<p title="\377">a' | tl set '[title="\FFFD"]' k v
  tl: -: invalid bytes would be read otherwise after this edit; tl text --strict says where (err)
  [2]
  $ printf '<p>\377' | tl set p k "$(printf '\364\217\277\277')"
  tl: -: invalid bytes would be read otherwise after this edit; tl text --strict says where (err)
  [2]
  $ printf '<p>\377\364\217\277\277' | tl set p k v
  tl: -: invalid UTF-8 at byte 3; --encoding names the encoding (err)
  [2]
  $ printf '<p>\377<p>\376' > wrong.html
  $ tl set -i p k v wrong.html
  $ LC_ALL=C sed -n l wrong.html
  <p k="v">\377<p k="v">\376$
  $ printf '<meta charset=windows-1253><p>\252' | tl set p k v
  tl: -: invalid byte sequence at byte 30; --encoding names the encoding (err)
  [2]
  $ printf '\376\377\000<\000p\000>\330\075' | tl set p k v
  tl: -: invalid byte sequence at byte 8; --encoding names the encoding (err)
  [2]
  $ printf '<p>\377' | tl set --strict p k v
  tl: -: invalid UTF-8 at byte 3; --encoding names the encoding (err)
  [2]

Pages that people have: each says its encoding otherwise, or none.

  $ printf '<html><head><meta charset=koi8-r><title>\360\322\311\327\305\324</title></head><body><p class=x>\360\322\311\327\305\324</p></body></html>' | tl select -t p
  Привет
  $ printf '<html><head><meta charset=iso-8859-2><title>\243\363d\274</title></head><body><p class=x>\243\363d\274</p></body></html>' | tl select -t p
  Łódź
  $ printf '<html><head><meta charset=iso-8859-15><title>Gr\366\337e \2445</title></head><body><p class=x>Gr\366\337e \2445</p></body></html>' | tl select -t p
  Größe €5
  $ printf '<html><head><meta http-equiv="Content-Type" content="text/html; charset=windows-1252"><title>\223Quote\224 \226 \2005</title></head><body><p class=x>\223Quote\224 \226 \2005</p></body></html>' | tl select -t p
  “Quote” – €5
  $ printf '<html><head><meta charset=iso-8859-1><title>Gr\366\337e caf\351 - x</title></head><body><p class=x>Gr\366\337e caf\351 - x</p></body></html>' | tl select -t p
  Größe café - x
  $ printf '\376\377\000<\000h\000t\000m\000l\000>\000<\000h\000e\000a\000d\000>\000<\000t\000i\000t\000l\000e\000>\000G\000r\000\366\000\337\000e\000 e\345g,\000<\000/\000t\000i\000t\000l\000e\000>\000<\000/\000h\000e\000a\000d\000>\000<\000b\000o\000d\000y\000>\000<\000p\000 \000c\000l\000a\000s\000s\000=\000x\000>\000G\000r\000\366\000\337\000e\000 e\345g,\000<\000/\000p\000>\000<\000/\000b\000o\000d\000y\000>\000<\000/\000h\000t\000m\000l\000>' | tl select -t p
  Größe 日本
  $ printf '\377\376<\000h\000t\000m\000l\000>\000<\000h\000e\000a\000d\000>\000<\000t\000i\000t\000l\000e\000>\000G\000r\000\366\000\337\000e\000 \000\345e,g<\000/\000t\000i\000t\000l\000e\000>\000<\000/\000h\000e\000a\000d\000>\000<\000b\000o\000d\000y\000>\000<\000p\000 \000c\000l\000a\000s\000s\000=\000x\000>\000G\000r\000\366\000\337\000e\000 \000\345e,g<\000/\000p\000>\000<\000/\000b\000o\000d\000y\000>\000<\000/\000h\000t\000m\000l\000>\000' | tl select -t p
  Größe 日本
  $ printf '<html><head><meta charset=iso-8859-1><title>Gr\303\266\303\237e \346\227\245\346\234\254</title></head><body><p class=x>Gr\303\266\303\237e \346\227\245\346\234\254</p></body></html>' | tl select -t p
  GrÃ¶ÃŸe æ—¥æœ¬
  $ printf '<html><head><meta charset=utf-8><title>Gr\303\266\303\237e</title></head><body><p class=x>Gr\303\266\303\237e bad\377</p></body></html>' | tl select -t p
  Größe bad�
  $ printf '\357\273\277<html><head><title>Gr\303\266\303\237e \346\227\245\346\234\254</title></head><body><p class=x>Gr\303\266\303\237e \346\227\245\346\234\254</p></body></html>' | tl select -t p
  Größe 日本
  $ printf '<html><head><title>Gr\366\337e caf\351</title></head><body><p class=x>Gr\366\337e caf\351</p></body></html>' | tl select -t p
  Gr��e caf�

A diff has the lines of the file, in its own bytes, so that `patch` takes it.

  $ printf '<meta charset=latin1>\n<p>caf\351\n<b>x\n' >latin.html
  $ tl set p k v --diff latin.html
  --- latin.html
  +++ latin.html
  @@ -1,3 +1,3 @@
   <meta charset=latin1>
  -<p>caf\xe9 (esc)
  +<p k="v">caf\xe9 (esc)
   <b>x
  $ printf '<p>a\377\n<b>x\n' >wrong.html
  $ tl set b k v --diff wrong.html
  --- wrong.html
  +++ wrong.html
  @@ -1,2 +1,2 @@
   <p>a\xff (esc)
  -<b>x
  +<b k="v">x
