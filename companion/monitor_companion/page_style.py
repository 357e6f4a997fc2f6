"""The style of a page: for screens from 400 pixels on, and for paper of A4."""

STYLE = """
:root{--ink:#1b2127;--soft:#59636d;--rule:#c8d0d7;--pale:#f3f5f7;--blue:#1f4e79;--bar:#9dbad6;
--amber:#a34e00;--valley:#f6d7a4}
*{box-sizing:border-box}
html{color-scheme:light;-webkit-text-size-adjust:100%}
body{margin:0;background:#fff;color:var(--ink);font:16px/1.5 "Source Sans 3","Segoe UI",Roboto,
"Helvetica Neue","Liberation Sans",Arial,sans-serif;font-variant-numeric:tabular-nums lining-nums}
main,header,footer{max-width:1080px;margin:0 auto;padding:0 32px}
header{padding-top:36px}
h1,h2,h3{line-height:1.2;font-weight:600;margin:0;overflow-wrap:anywhere}
h1{font-size:30px;letter-spacing:-.01em}
h2{font-size:22px;margin-bottom:12px}
h3{font-size:17px;margin:28px 0 6px}
p{margin:0 0 10px;max-width:80ch}
a{color:var(--blue);text-decoration:none}
a:hover{text-decoration:underline}
header .what{color:var(--soft);margin:6px 0 0}
nav{display:flex;flex-wrap:wrap;gap:2px 18px}
nav{margin-top:14px;font-size:14px;border-top:2px solid var(--ink);padding-top:8px}
nav a{overflow-wrap:anywhere}
section{margin-top:40px}
section.gauge{border-top:1px solid var(--rule);padding-top:26px}
small{font-size:.8em;font-weight:400;color:var(--soft)}
.note{color:var(--soft);font-size:13.5px;line-height:1.45;max-width:none}
table{border-collapse:collapse;width:100%;margin:0 0 10px;font-size:15px}
caption{text-align:left;font-weight:600;padding:14px 0 4px}
th,td{text-align:left;font-weight:400;padding:7px 18px 7px 0;vertical-align:baseline}
thead th{color:var(--soft);font-size:13px;line-height:1.25;vertical-align:bottom;
border-bottom:1.5px solid var(--ink)}
tbody th,tbody td{border-bottom:1px solid var(--rule)}
tbody th{font-weight:600;overflow-wrap:anywhere}
.details td:nth-child(2){overflow-wrap:anywhere}
.number,.numbers td{text-align:right}
.numbers thead th:not(:first-child){text-align:right}
.numbers th,.numbers td{padding:4px 0 4px 14px}
.numbers th:first-child{padding-left:0}
.numbers tbody th{font-weight:400}
.numbers td{white-space:nowrap}
.numbers{font-size:13.5px}
.numbers tfoot th,.numbers tfoot td{border-top:1.5px solid var(--ink);font-weight:600}
.strong{font-weight:600}
.gauges th:last-child,.gauges td:last-child{padding-right:0}
.share{width:26%;padding-right:0}
.share i{display:block;height:11px;min-width:1px;background:var(--bar);
border-left:2px solid var(--blue);print-color-adjust:exact;-webkit-print-color-adjust:exact}
.word{display:none}
.under{display:block}
.flagged{color:var(--amber);font-weight:600}
.past{color:var(--amber);border:1px solid;border-radius:3px;padding:0 5px;font-size:12px;
white-space:nowrap}
.warning{border:1px solid var(--amber);border-left-width:6px;padding:10px 16px;margin:0 0 8px}
.warning strong{color:var(--amber)}
.warning p{margin:0 0 4px}
.warning ul{margin:0;padding-left:18px}
.facts{color:var(--soft);margin-bottom:14px}
.charts,.pair{display:grid;grid-template-columns:1fr 1fr;gap:26px 44px;align-items:start}
figure{margin:0;min-width:0}
figcaption{font-weight:600;font-size:15px;margin-bottom:6px}
figure .note{margin:4px 0 0}
svg{display:block;width:100%;height:auto}
svg text{font-size:11.5px;fill:#3b444d}
svg .middle{text-anchor:middle}
svg .end{text-anchor:end}
svg .label{font-size:12px;fill:var(--ink)}
svg .small{font-size:10.5px}
svg .halo{paint-order:stroke;stroke:#fff;stroke-width:3px;stroke-linejoin:round}
svg .strong{font-weight:700;fill:var(--ink)}
svg .grid{stroke:#dfe4e8;stroke-width:.8;fill:none}
svg .axis{stroke:var(--ink);stroke-width:1;fill:none}
svg .bar{fill:var(--bar)}
svg .valley{fill:var(--valley)}
svg .cumulated{stroke:var(--blue);stroke-width:1.4;fill:none}
svg .guess{stroke:var(--blue);stroke-width:1;stroke-dasharray:2 3;fill:none}
svg .point{fill:#fff;stroke:var(--blue);stroke-width:1.4}
svg .curve{stroke:var(--ink);stroke-width:1.5;fill:none}
svg .reference{stroke:var(--soft);stroke-width:1;stroke-dasharray:4 3;fill:none}
svg .diagonal{stroke:var(--rule);stroke-width:1;fill:none}
svg .shade0{fill:#dbe6f0}
svg .shade1{fill:#a9c4dd}
svg .shade2{fill:#6c98c1}
svg .shade3{fill:#37699c}
svg .shade4{fill:#12355a}
svg.swatch{display:inline-block;width:34px;height:8px;vertical-align:middle}
.key{display:inline-block;width:14px;height:9px;margin-right:5px;background:var(--bar);
print-color-adjust:exact;-webkit-print-color-adjust:exact}
.key-line{height:0;border-top:2px solid var(--blue);vertical-align:middle}
.key-valley{background:var(--valley)}
.more{margin-top:14px}
.more summary{cursor:pointer;color:var(--blue);font-size:14px}
.more table{max-width:620px}
.warning p{max-width:none}
footer{margin-top:52px;padding-bottom:48px}
footer .inner{border-top:1px solid var(--rule);padding-top:14px;font-size:13px;color:var(--soft)}
footer code{overflow-wrap:anywhere;font-size:12px}
footer h2{font-size:15px;color:var(--ink);margin-bottom:6px}
@media screen and (max-width:760px){
main,header,footer{padding-left:16px;padding-right:16px}
header{padding-top:22px}
h1{font-size:24px}
h2{font-size:19px}
.charts,.pair{grid-template-columns:minmax(0,1fr)}
section{margin-top:30px}
.details thead,.gauges thead{position:absolute;width:1px;height:1px;overflow:hidden;
clip-path:inset(50%)}
.details,.details tbody,.gauges,.gauges tbody,.details caption,.gauges caption{display:block}
.details tr{display:grid;grid-template-columns:minmax(0,1fr) auto;column-gap:12px}
.details tr{padding:8px 0;
border-bottom:1px solid var(--rule)}
.details tbody th,.details tbody td,.gauges tbody th,.gauges tbody td{border:0;padding:0}
.details tr>:nth-child(1){grid-area:1/1}
.details tr>:nth-child(5){grid-area:1/2}
.details tr>:nth-child(2){grid-area:2/1;color:var(--soft);font-size:14px}
.details tr>:nth-child(3){grid-area:3/1;color:var(--soft);font-size:14px}
.details tr>:nth-child(4){grid-area:3/2;color:var(--soft);font-size:14px}
.details tr>.share{grid-area:4/1/5/3;width:auto;margin-top:5px}
.word{display:inline;font-weight:400;color:var(--soft)}
.gauges tr{display:grid;grid-template-columns:repeat(4,auto);justify-content:space-between;
column-gap:10px;padding:8px 0;border-bottom:1px solid var(--rule)}
.gauges tr>th{grid-column:1/-1}
.gauges td::before{content:attr(data-word);display:block;color:var(--soft);font-size:12px;
font-weight:400}
.gauges td{text-align:left}
.numbers{font-size:12.5px}
.numbers th,.numbers td{padding-left:7px}
}
@page{size:A4;margin:15mm 14mm}
@media print{
body{font-size:10pt;line-height:1.4}
main,header,footer{max-width:none;padding:0}
header{padding-top:0}
nav{display:none}
h1{font-size:19pt;border-bottom:1.5pt solid var(--ink);padding-bottom:5pt}
h2{font-size:14pt}
h3{font-size:11.5pt;margin-top:14pt}
a{color:inherit}
section{margin-top:16pt}
section.gauge{break-before:page;border-top:0;padding-top:0}
table{font-size:9.5pt}
.numbers{font-size:8pt}
.numbers th,.numbers td{padding-left:6pt}
.note{font-size:8.5pt}
figure,tr,.warning,.detail{break-inside:avoid}
h2,h3,caption{break-after:avoid}
.charts,.pair{gap:12pt 18pt;grid-template-columns:minmax(0,1fr) minmax(0,1fr)}
svg *{print-color-adjust:exact;-webkit-print-color-adjust:exact}
}
"""
