// HTML in the manner of other programs that put it on the clipboard, written by hand, and the spans that it becomes.

const [bold, italic] = [{ strong: true }, { em: true }];

const SPAN = "font-size:11pt;font-family:Arial,sans-serif;color:#000000;background-color:transparent;font-variant:normal";

/** Each with its name, its HTML, and the texts with their marks. */
export const SOURCES = [
  [
    "Google Docs",
    `<meta charset='utf-8'><b style="font-weight:normal;" id="docs-internal-guid-5d1c"><h1 dir="ltr" style="line-height:1.38;margin-top:20pt;"><span style="${SPAN};font-weight:400;font-style:normal;">Heading</span></h1>` +
      `<p dir="ltr" style="line-height:1.38;"><span style="${SPAN};font-weight:400;font-style:normal;">Plain </span><span style="${SPAN};font-weight:700;font-style:normal;">bold</span><span style="${SPAN};font-weight:400;font-style:italic;"> italic</span><span style="${SPAN};font-weight:700;font-style:italic;"> both</span></p><br />` +
      `<p dir="ltr"><span style="${SPAN};font-weight:400">After</span><span style="${SPAN};font-weight:400"><br /></span><span style="${SPAN};font-weight:400">break </span><a href="https://example.org/x" style="text-decoration:none;"><span style="${SPAN};font-weight:400;text-decoration:underline;">link</span></a></p>` +
      `<ul style="padding-inline-start:48px;"><li dir="ltr" style="list-style-type:disc;${SPAN};font-weight:700;font-style:normal;" aria-level="1"><p dir="ltr" role="presentation"><span style="${SPAN};font-weight:400;">one</span></p></li><li dir="ltr" style="list-style-type:disc;${SPAN};font-weight:400;" aria-level="1"><p dir="ltr" role="presentation"><span style="${SPAN};font-weight:700;">two</span></p></li></ul></b><br class="Apple-interchange-newline">`,
    [["Heading\nPlain "], ["bold", bold], [" italic", italic], [" both", { ...bold, ...italic }], ["\n\nAfter\nbreak "], ["link", { link: "https://example.org/x" }], ["\none\n"], ["two", bold]],
  ],
  [
    "Word",
    `<html xmlns:o="urn:schemas-microsoft-com:office:office"\r\nxmlns:w="urn:schemas-microsoft-com:office:word">\r\n\r\n<head>\r\n<title>T</title><!--[if gte mso 9]><xml>\r\n <w:WordDocument><w:View>Normal</w:View></w:WordDocument>\r\n</xml><![endif]-->\r\n<style>\r\n<!--\r\n p.MsoNormal {margin:0cm;}\r\n-->\r\n</style>\r\n</head>\r\n\r\n<body lang=EN-GB>\r\n<!--StartFragment-->\r\n\r\n` +
      `<p class=MsoNormal>Plain <b style='mso-bidi-font-weight:normal'>bold</b> and <i\r\nstyle='mso-bidi-font-style:normal'>italic</i> and <a\r\nhref="https://example.org/w">a\r\nlink</a>.<o:p></o:p></p>\r\n\r\n<p class=MsoNormal><o:p>&nbsp;</o:p></p>\r\n\r\n<p class=MsoNormal><b><span lang=EN-US style='font-size:12.0pt'>Strong<br>\r\nnext<o:p></o:p></span></b></p>\r\n\r\n` +
      ["First", "Last"].map((item) => `<p class=MsoListParagraphCxSp${item} style='text-indent:-18.0pt;mso-list:l0 level1 lfo1'><![if !supportLists]><span\r\nstyle='font-family:Symbol'><span style='mso-list:Ignore'>·<span\r\nstyle='font:7.0pt "Times New Roman"'>&nbsp;&nbsp;&nbsp;&nbsp; </span></span></span><![endif]>${item} item<o:p></o:p></p>\r\n\r\n`).join("") +
      "<!--EndFragment-->\r\n</body>\r\n\r\n</html>",
    [["Plain "], ["bold", bold], [" and "], ["italic", italic], [" and "], ["a link", { link: "https://example.org/w" }], [".\n\n"], ["Strong\nnext", bold], ["\nFirst item\nLast item"]],
  ],
  [
    "a web page in Chrome",
    `<meta charset='utf-8'><h2 style="color: rgb(32, 33, 34); font-weight: 600; font-style: normal;">History</h2><p style="margin: 0.5em 0px; font-size: 14px; font-style: normal; font-variant-ligatures: normal; font-weight: 400; text-align: start;"><b>Peritext</b> is a<span>&nbsp;</span><i>CRDT</i><span>&nbsp;</span>for<span> </span><a href="https://example.org/wiki" title="Rich text">rich text</a>.</p>` +
      `<p><strong>strong <span style="font-weight: normal">not so</span></strong>, <em>it <span style="font-style: normal">upright</span></em>, <b style="font-weight: 400">thin</b>, <span style="font-style: oblique 10deg">oblique</span></p><ul><li>10&nbsp;km</li></ul>`,
    [["History\nPeritext", bold], [" is a "], ["CRDT", italic], [" for "], ["rich text", { link: "https://example.org/wiki" }], [".\n"], ["strong ", bold], ["not so, "], ["it ", italic], ["upright, thin, "], ["oblique", italic], ["\n10\u00a0km"]],
  ],
  [
    "a list of Markdown",
    `<p>A list:</p>\n<ul>\n<li><p>one <strong>bold</strong></p>\n</li>\n<li><p>two <code>code</code></p>\n<ul>\n<li>inner <em>it</em></li>\n</ul>\n</li>\n</ul>\n<ol>\n<li><input disabled="" type="checkbox"> task</li>\n</ol>\n<pre><code class="language-sh">make demo\nmake test\n</code></pre>\n<blockquote>\n<p>said</p>\n</blockquote>`,
    [["A list:\none "], ["bold", bold], ["\ntwo code\ninner "], ["it", italic], ["\ntask\nmake demo\nmake test\nsaid"]],
  ],
  [
    "a mail",
    `<div dir="ltr">Hello,<div><br></div><div>two <b>bold</b></div><div>&nbsp;</div><div>three</div></div>`,
    [["Hello,\n\ntwo "], ["bold", bold], ["\n\nthree"]],
  ],
];
