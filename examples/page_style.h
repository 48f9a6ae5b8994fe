/* How the page looks: on a screen in a light and a dark theme, and on A4. No outside resource. */
#ifndef PAGE_STYLE_H
#define PAGE_STYLE_H

#define LIGHT \
    "--ink:#1f1e1a;--paper:#fff;--soft:#f4f2ec;--line:#c4bfb2;--faint:#5c584d;--link:#1c5488;--good:#2d6a43;--bad:#9c2f10;--warm:#fbeee6;" \
    "--on:#b4532a;--off:#bd8419;--decay:#4d7c5a;--coal-on:#6d3016;--coal-off:#7d5c1c;--rest:#4d7c5a;"
#define DARK \
    "--ink:#eae7df;--paper:#191816;--soft:#24231f;--line:#4d493f;--faint:#b3ad9f;--link:#8fc0ec;--good:#84c69b;--bad:#f2a083;--warm:#33231b;" \
    "--on:#d8713f;--off:#e3b04f;--decay:#6aa97c;--coal-on:#a4552f;--coal-off:#a8833b;--rest:#6aa97c;"

/* In two parts, since C promises no longer strings. */
static const char *const style[] = {
    ":root{color-scheme:light dark;" LIGHT "}\n"
    "@media screen and (prefers-color-scheme:dark){:root{" DARK "}}\n"
    "*{box-sizing:border-box}\n"
    "html{-webkit-text-size-adjust:100%}\n"
    "body{margin:0 auto;padding:1rem;max-width:80rem;background:var(--paper);color:var(--ink);"
    "font:1rem/1.5 system-ui,'Segoe UI',Roboto,'Liberation Sans',Arial,sans-serif;overflow-wrap:break-word}\n"
    "a{color:var(--link)}\n"
    ".skip{position:absolute;left:-99rem}.skip:focus{position:static}\n"
    "h1{font-size:1.7rem;line-height:1.2;margin:.2rem 0}\n"
    "h2{font-size:1.3rem;line-height:1.25;margin:2.4rem 0 .4rem;padding-top:.5rem;border-top:3px solid var(--ink)}\n"
    "h3{font-size:1.05rem;margin:1.4rem 0 .3rem}\n"
    "p,ul{margin:.4rem 0;max-width:48rem}ul{padding-left:1.3rem}li{margin:.2rem 0}\n"
    "nav ul{list-style:none;padding:0;display:flex;flex-wrap:wrap;gap:.1rem 1.1rem;max-width:none}nav li{margin:0}\n"
    ".faint,.unit,.rule,.of{color:var(--faint)}\n"
    ".scroll{overflow-x:auto;max-width:100%;margin:.3rem 0 .8rem}\n"
    ".scroll:focus-visible,a:focus-visible{outline:2px solid var(--link);outline-offset:2px}\n"
    "table{border-collapse:collapse;min-width:min(26rem,100%);font-size:.9rem;line-height:1.35;font-variant-numeric:tabular-nums}\n"
    "caption{text-align:left;color:var(--faint);padding:.2rem 0}caption span{display:inline-block;position:sticky;left:0;max-width:calc(100vw - 1.6rem)}\n"
    "th,td{border:1px solid var(--line);padding:.3rem .5rem;vertical-align:top;text-align:left}\n"
    "thead th{background:var(--soft);font-weight:400;min-width:5.2rem}\n"
    "thead th.row{min-width:0}\n"
    "tbody th{font-weight:600;background:var(--paper);position:sticky;left:0}\n"
    "tbody th.gas{position:static}\n"
    "tfoot th,tfoot td{background:var(--soft);font-weight:600}tfoot th{position:sticky;left:0}\n"
    "td.n{text-align:right;white-space:nowrap}wbr{display:none}\n"
    "td.words{min-width:12rem}\n"
    "td.none{background:var(--soft)}tfoot td.none{background:var(--soft)}\n"
    ".letter{display:block;font-weight:700;font-size:1.1em}.unit,.rule{display:block;font-size:.85em}\n"
    ".mark{display:inline-block;margin-right:.3em;padding:0 .4em;border:1px solid currentColor;border-radius:.7em;font-size:.85em;"
    "font-weight:600;color:var(--bad);white-space:nowrap}\n"
    ".pad{visibility:hidden}.exact{display:block;font-weight:400;color:var(--faint);font-size:.92em}\n"
    "code{font-family:ui-monospace,'Liberation Mono',Consolas,monospace;font-size:.92em;overflow-wrap:anywhere}th code{white-space:nowrap}\n"
    ".stop{border-left:.4rem solid var(--bad);background:var(--warm);padding:.5rem .9rem;margin:.8rem 0;max-width:52rem}\n"
    ".good{color:var(--good)}.bad{color:var(--bad)}\n"
    "figure{margin:.5rem 0;max-width:38rem}figcaption{color:var(--faint);font-size:.9em}\n"
    "svg{display:block;width:100%;height:auto}svg text{fill:var(--ink);font-size:12px}svg .small{fill:var(--faint);font-size:11px}"
    "svg .strong{font-weight:700}svg .line{stroke:var(--line);fill:none}svg .edge{stroke:var(--ink);fill:none}\n"
    ".swatch{width:.9rem;height:.9rem;display:inline-block;vertical-align:-.1rem}\n"
    ".c0{fill:var(--on)}.c1{fill:var(--off)}.c2{fill:var(--decay)}\n"
    ".m0{fill:var(--on)}.m1{fill:var(--coal-on)}.m2{fill:var(--off)}.m3{fill:var(--coal-off)}.m4{fill:var(--rest)}\n"
    "footer{margin-top:2.5rem;border-top:1px solid var(--line);color:var(--faint);font-size:.9em}\n"
    "@media screen and (max-width:40rem){body{padding:.7rem}h1{font-size:1.4rem}td.words{min-width:9rem}svg text{font-size:16px}svg .small{font-size:15px}}\n",
    "@page{size:A4 landscape;margin:10mm 12mm}\n"
    "@media print{body{max-width:none;padding:0;font-size:9pt;line-height:1.35}nav,.skip{display:none}h1{font-size:15pt}h2{font-size:12.5pt;margin-top:1rem}"
    "h3{font-size:10pt;margin:.7rem 0 .2rem}h1,h2,h3{break-after:avoid}.scroll{overflow:visible;break-inside:avoid}table{font-size:7.5pt;line-height:1.2}"
    "th,td{padding:.09rem .35rem}.wide td.n{white-space:normal}.wide td.n wbr{display:inline}thead{display:table-header-group}tfoot{display:table-row-group}tfoot tr{break-before:avoid}"
    "tr,figure,.stop,tbody.group{break-inside:avoid}thead th{min-width:0}tbody th,tfoot th,caption span{position:static}figure{max-width:120mm}"
    "p,li{orphans:3;widows:3}a{color:inherit}*{print-color-adjust:exact;-webkit-print-color-adjust:exact}}\n",
};

#endif
