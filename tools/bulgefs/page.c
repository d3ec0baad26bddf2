/* The frame of the report's page: style for a light and a dark ground, no script, nothing from elsewhere. */
#include <inttypes.h>
#include <string.h>

#include "page.h"

void page_number(FILE *out, uint64_t number)
{
    char text[32];
    size_t length, i;
    snprintf(text, sizeof text, "%" PRIu64, number);
    length = strlen(text);
    for (i = 0; i < length; i++) {
        if (i != 0 && (length - i) % 3 == 0) fputc(',', out);
        fputc(text[i], out);
    }
}

void page_path(FILE *out, const char *path, int directory)
{
    char above[BULGEFS_MAX_PATH + 2];
    const char *name = strrchr(path, '/');
    if (name == NULL || (size_t)(name - path) + 2 > sizeof above) name = path;
    else name++;
    memcpy(above, path, (size_t)(name - path));
    above[name - path] = 0;
    fputs("<span class=\"path\"><span class=\"pale\">", out);
    put_markup(out, above);
    fputs("</span>", out);
    put_markup(out, name);
    fputs(directory ? "/</span>" : "</span>", out);
}

static const char colours[] =
    ":root{color-scheme:light dark;--ground:#f6f7f9;--sheet:#fff;--text:#1d2430;--pale:#5b6472;"
    "--line:#e1e5ea;--good:#1c7f57;--goodground:#e3f4ec;--bad:#b3372f;--badground:#fbe9e7;--mark:#4772d8}\n"
    "@media (prefers-color-scheme:dark){:root{--ground:#101318;--sheet:#181c22;--text:#e8ecf2;"
    "--pale:#9aa4b2;--line:#2b313a;--good:#63d3a2;--goodground:#16352a;--bad:#ff9a90;--badground:#41201d;"
    "--mark:#789af2}}\n";

static const char layout[] =
    "*,*::before{box-sizing:border-box}\n"
    "body{margin:0;background:var(--ground);color:var(--text);font:15px/1.5 system-ui,-apple-system,"
    "\"Segoe UI\",Roboto,\"Helvetica Neue\",sans-serif}\n"
    "main{max-width:1080px;margin:0 auto;padding:32px 20px 64px}\n"
    "h1{font-size:28px;line-height:1.2;margin:0 0 6px;overflow-wrap:anywhere}\n"
    "h2{font-size:18px;margin:0 0 14px}\n"
    "section{background:var(--sheet);border:1px solid var(--line);border-radius:12px;padding:20px 22px;"
    "margin-top:18px}\n"
    ".pale{color:var(--pale)}.path,.mono{font-family:ui-monospace,Menlo,Consolas,monospace;font-size:13px}\n"
    ".path{overflow-wrap:anywhere}\n"
    ".tag{display:inline-block;border-radius:999px;padding:1px 10px;font-size:13px;font-weight:600;"
    "color:var(--good);background:var(--goodground)}\n"
    ".tag.bad{color:var(--bad);background:var(--badground)}\n"
    ".cards{display:grid;grid-template-columns:repeat(4,1fr);gap:12px;margin-top:18px}\n"
    "@media (max-width:720px){.cards{grid-template-columns:repeat(2,1fr)}}\n"
    ".card{background:var(--sheet);border:1px solid var(--line);border-radius:12px;padding:14px 16px}\n"
    ".card b{display:block;font-size:24px;line-height:1.25;font-variant-numeric:tabular-nums}\n"
    ".card span{color:var(--pale);font-size:13px}\n"
    ".bar{display:flex;height:14px;border-radius:7px;overflow:hidden;margin-bottom:18px}\n"
    ".map{width:100%;height:auto;display:block}\n";

static const char tables[] =
    ".wide{overflow-x:auto}\n"
    "table{border-collapse:collapse;width:100%;font-size:14px}\n"
    "th,td{text-align:left;padding:6px 12px 6px 0;border-bottom:1px solid var(--line);vertical-align:top}\n"
    "th{color:var(--pale);font-weight:600;font-size:13px;white-space:nowrap}\n"
    "tr:last-child td{border-bottom:0}td:first-child{min-width:180px}\n"
    "td.n,th.n{text-align:right;font-variant-numeric:tabular-nums}\n"
    "td.t{white-space:nowrap;font-variant-numeric:tabular-nums;font-size:13px}\n"
    ".line{list-style:none;margin:0;padding:0}\n"
    ".line>li{position:relative;padding:0 0 20px 26px;border-left:2px solid var(--line);margin-left:7px}\n"
    ".line>li:last-child{padding-bottom:0}\n"
    ".line>li::before{content:\"\";position:absolute;left:-7px;top:5px;width:12px;height:12px;"
    "border-radius:50%;background:var(--sheet);border:2px solid var(--mark)}\n"
    ".line>li:first-child::before{background:var(--mark)}\n"
    ".line h3{font-size:15px;margin:0}.line ul{margin:6px 0;padding:0;list-style:none}\n"
    ".sign{display:inline-block;width:1.5em;font-weight:700;"
    "font-family:ui-monospace,Menlo,Consolas,monospace}\n"
    ".plus{color:var(--good)}.minus{color:var(--bad)}.star{color:var(--mark)}\n"
    "details{font-size:13px;color:var(--pale)}summary{cursor:pointer}\n"
    "footer{color:var(--pale);font-size:13px;margin-top:18px}\n"
    "@media print{body{background:#fff}section,.card{break-inside:avoid}}\n";

void page_head(FILE *out, const char *title)
{
    fputs("<!DOCTYPE html>\n<html lang=\"en\">\n<head>\n<meta charset=\"utf-8\">\n"
          "<meta name=\"viewport\" content=\"width=device-width,initial-scale=1\">\n<title>", out);
    put_markup(out, title);
    fputs("</title>\n<style>\n", out);
    fputs(colours, out);
    fputs(layout, out);
    fputs(tables, out);
    map_style(out);
    fputs("</style>\n</head>\n<body>\n<main>\n", out);
}

void page_end(FILE *out, int sound)
{
    fputs("<footer>Times are UTC. ", out);
    fputs(sound ? "The verdict, the counts of blocks and all entries shown, also in the journal, are the library's answers, which are "
                  "proved; chains, which entries differ, and what is drawn or summed up from all these, are plain code."
                : "The verdict is the library's; all else on this page is plain code.", out);
    fputs("</footer>\n</main>\n</body>\n</html>\n", out);
}
