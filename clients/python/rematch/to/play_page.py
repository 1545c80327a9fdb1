"""The page of ``rematch-play``: a query, a document, and the rows under them."""
from __future__ import annotations

from html import escape

from ..view import PAGE_STYLE, ROWS_SCRIPT, STYLE

__all__ = ['page']

_OWN = '''
body{margin:1em auto;max-width:90em}
h1{font-size:1.1em;margin:.2em 0}
.pl-in{display:grid;grid-template-columns:1fr 1fr;gap:1em}
.pl-in label{display:block;font-size:13px;margin-bottom:.2em}
textarea{box-sizing:border-box;width:100%;height:9em;font:15px/1.4 ui-monospace,"DejaVu Sans Mono",monospace;resize:vertical;padding:.4em;tab-size:4}
#fault{margin:.5em 0;padding:.4em;border-left:4px solid #c92a2a;font-size:14px}
#fault pre{overflow-x:auto;font:14px/1.4 ui-monospace,"DejaVu Sans Mono",monospace;margin:0}
#fault p{margin:.3em 0 0}
#fault:not(:has(:not(:empty))),#there[hidden]{display:none}
.pl-bar{display:flex;flex-wrap:wrap;gap:.5em;align-items:center;padding:.5em 0;font-size:14px}
.pl-bar button,#there{font:inherit;padding:.2em .6em}
#told{overflow-x:auto;font:14px/1.4 ui-monospace,"DejaVu Sans Mono",monospace;margin:0}
#told:empty,#advice:empty{display:none}
#advice{font-size:14px;margin:.2em 0;padding-left:1.4em}
#rows[aria-busy=true]{opacity:.6}
@media (max-width:700px){.pl-in{grid-template-columns:1fr}textarea{height:6em}}
'''
_SCRIPT = '''
const $=i=>document.getElementById(i),query=$('query'),text=$('document'),fault=$('fault'),place=fault.firstChild,hint=fault.lastChild,rows=$('rows'),say=$('say'),there=$('there'),advice=$('advice');
let sent=text.defaultValue,known=0,number=0,first=0,late,reply={};
const ask=async to=>{const mine=++number,body={query:query.value,first:to,known};const own=text.value;if(own!==sent)body.document=own;
rows.setAttribute('aria-busy','true');let got;
try{const r=await fetch('',{method:'POST',headers:{'Content-Type':'application/json'},body:JSON.stringify(body)});
got=r.ok?await r.json():{fault:await r.text()};if(got.again){sent=null;if(mine===number)return ask(to)}
else if(got.known!=null){sent=own;known=got.known}}catch(e){got={fault:'rematch-play has ended: begin it anew'}}
if(mine!==number||got.old)return;rows.setAttribute('aria-busy','false');reply=got;
const told=query.value&&got.fault||'',k=told.indexOf('\\nhint: ');place.textContent=k<0?told:told.slice(0,k);
hint.textContent=k<0?'':told.slice(k+1);there.hidden=!told||got.at==null;
advice.replaceChildren(...(got.advice||[]).map(x=>Object.assign(document.createElement('li'),{textContent:x})));if(got.fault){say.textContent=told&&(rows.firstChild?'fault; the rows are those of the query before':'fault');return}
first=got.first;rows.innerHTML=got.html;
say.textContent=got.rows?'rows '+(first+1)+' to '+(first+got.rows)+(got.all?' of '+got.found:', and more'):'no rows';
$('back').disabled=!first;$('begin').disabled=!first;$('on').disabled=!got.more};
$('why').addEventListener('click',async()=>{await ask(first);const told=$('told');told.textContent='..';
try{const r=await fetch('',{method:'POST',headers:{'Content-Type':'application/json'},body:JSON.stringify({query:query.value,first:0,why:true})});
told.textContent=r.ok?(await r.json()).why:await r.text()}catch(e){told.textContent='rematch-play has ended: begin it anew'}});
const soon=()=>{$('told').textContent='';clearTimeout(late);late=setTimeout(()=>ask(0),200)};
query.addEventListener('input',soon);text.addEventListener('input',soon);
const turn=async to=>{await ask(to);rows.scrollIntoView({block:'nearest'});rows.querySelector('li[data-r]')?.focus({preventScroll:true})};
$('on').addEventListener('click',()=>turn(first+100));$('back').addEventListener('click',()=>turn(Math.max(0,first-100)));
$('begin').addEventListener('click',()=>turn(0));
there.addEventListener('click',()=>{query.focus();query.setSelectionRange(reply.at,reply.at+1)});
document.addEventListener('keydown',e=>{if(!e.target.closest('#rows'))return;
if(e.key=='PageDown'&&!$('on').disabled){e.preventDefault();turn(first+100)}
else if(e.key=='PageUp'&&first){e.preventDefault();turn(Math.max(0,first-100))}
else if(e.key=='Escape')query.focus()});
if(query.value)ask(0);
'''


def page(query: str, document: str, name: str, nonce: str) -> str:
    """The page, with what it begins with; ``nonce`` is what the policy of the server lets scripts run by.

    >>> shown = page('/<a>/', 'x', 'd&d', 'n')
    >>> '/&lt;a&gt;/' in shown, 'd&amp;d' in shown
    (True, True)
    """
    title = f'rematch: {escape(name)}' if name else 'rematch'
    return f'''<!doctype html>
<html lang="en"><head><meta charset="utf-8"><meta name="viewport" content="width=device-width"><title>{title}</title>
<style>{PAGE_STYLE}{STYLE}{_OWN}</style></head><body><main>
<h1>{title}</h1>
<div class="pl-in">
<div><label for="query">Query</label><textarea id="query" lang="" spellcheck="false" autocapitalize="off" autocomplete="off" autofocus
 aria-describedby="fault">
{escape(query)}</textarea></div>
<div><label for="document">Document</label><textarea id="document" lang="" dir="auto" spellcheck="false" autocomplete="off">
{escape(document)}</textarea></div>
</div>
<div id="fault" role="alert"><pre></pre><p></p></div><button id="there" hidden>Go to the place</button>
<div class="pl-bar"><button id="begin" disabled>First</button><button id="back" disabled>Previous</button><button id="on" disabled>Next</button>
<button id="why">How far it fits</button>
<output id="say" aria-live="polite"></output></div>
<ul id="advice" aria-label="advice" aria-live="polite"></ul>
<pre id="told" aria-live="polite"></pre>
<div id="rows" class="rm" role="region" aria-label="rows over their document"></div>
</main><script nonce="{nonce}">{ROWS_SCRIPT}{_SCRIPT}</script></body></html>
'''
