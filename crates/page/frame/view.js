// 7. Two runs. Statements with the same text are paired, in their order.
const replyOf=({printed})=>printed.replace(/^[0-9]+ /gm,""),textOf=({code})=>code.replace(/ +/g," ");
const differs=statement=>!!other.script.length&&(!statement.pair||replyOf(statement)!==replyOf(statement.pair));
function pairRuns(){
 const ones=script,others=other.script,same=(k,m)=>textOf(ones[k])===textOf(others[m]);
 const pair=(k,m)=>{ones[k].pair=others[m];others[m].pair=ones[k]};
 let first=0,end=0;const least=min(ones.length,others.length);
 while(first<least&&same(first,first)){pair(first,first);first++}
 while(end<least-first&&same(ones.length-1-end,others.length-1-end)){end++;pair(ones.length-end,others.length-end)}
 const rows=ones.length-end-first,columns=others.length-end-first;
 if(rows*columns<=4e6)pairLongest(first,rows,columns,same,pair)}
function pairLongest(first,rows,columns,same,pair){ // The longest common subsequence of what is between the common ends.
 const lengths=Array.from({length:rows+1},()=>new Uint16Array(columns+1));
 for(let k=rows-1;k>=0;k--)for(let m=columns-1;m>=0;m--)
  lengths[k][m]=same(first+k,first+m)?lengths[k+1][m+1]+1:max(lengths[k+1][m],lengths[k][m+1]);
 for(let k=0,m=0;k<rows&&m<columns;){
  if(same(first+k,first+m))pair(first+k++,first+m++);
  else if(lengths[k+1][m]>=lengths[k][m+1])k++;else m++}}
function listing(){ // The items, and before each the statements that only the other run has.
 if(!other.script.length)return items;
 const list=[];let next=0;
 const others=stop=>{for(;next<stop;next++)if(!other.script[next].pair)list.push({line:"+",only:other.script[next]})};
 for(const item of items){
  if(item.pair){others(item.pair.index);next++}
  list.push(item)}
 others(other.script.length);return list}
function drawRuns(state,width){ // The regions; beside them, or below, those of the other run.
 if(!other.script.length)return drawRegions(state,width,8,false,current.window);
 const{pair}=current,wide=width>=760?floor((width-24)/2):width;
 const right=pair?`<pre class="printed ${pair.result}">${linked(pair.printed)}</pre><p class="why">${linked(pair.why)}</p>`
  +drawRegions(replay(pair,other.script),wide,8,false,null):"<p>It does not have this statement.</p>";
 return`<div class="runs"><section><h3>this run</h3>${drawRegions(state,wide,8,false,current.window)}</section>
<section class="${differs(current)?"differs":""}"><h3>the other run${pair?", line "+pair.line:""}</h3>${right}</section></div>`}
function comparison(){
 if(!other.script.length)return"";
 const some=script.filter(differs).length,only=other.script.filter(({pair})=>!pair).length;
 return`<p id="compared">Two runs: ${count(some,"statement")} ${some===1?"differs":"differ"} (keys d and D)${
  only?`, and the other run has ${only} more`:""}.</p>`}
// 8. Search. The statements that have a text or used the byte at an address; and those with the task, subpools or names of the current one.
let found=null;
function search(text){
 const wanted=text.trim().toUpperCase(),byte=/^[0-9A-F]{8}$/.test(wanted)?{at:parseInt(wanted,16),length:1}:null;
 found=wanted?script.filter(({text,places})=>text.includes(wanted)||byte&&places.some(place=>overlap(place,byte))):null;
 for(const{element}of script)element.classList.remove("hit");
 if(found)for(const{element}of found)element.classList.add("hit");
 byId("found").textContent=found?count(found.length,"statement"):""}
const sharesAny=(one,other)=>[...one].some(item=>other.has(item));
const ALIKE={ // What makes a statement like the current one.
 found:statement=>found===null||found.includes(statement),
 refused:({result})=>result!=="ok",differs,
 task:({task,result})=>task===current.task&&result!=="js",
 subpool:({subpools})=>sharesAny(subpools,current.subpools),
 name:statement=>sharesAny(namesIn(statement),namesIn(current))};
function seek(alike,by){ // Jumps to the next or the previous statement of a kind, around the end.
 for(let k=1;k<=script.length;k++){
  const next=script[(current.index+by*k+script.length*2)%script.length];
  if(ALIKE[alike](next))return jump(next)}}
function jump(statement){if(statement!==current)location.hash="#l"+statement.line} // The browser's Back returns from it.
let depth=0; // How many jumps led here: `b` never leaves the page. Each entry of the browser's history has its own.
function noteDepth(){
 if(history.state)depth=history.state.depth;
 else history.replaceState({depth:++depth},"")}
function back(){if(depth>0)history.back()}
function onSearchKey(event){
 const box=event.target;
 if(event.key==="Enter"){seek("found",event.shiftKey?-1:1);requestAnimationFrame(()=>box.focus())}
 else if(event.key==="Escape"){box.value="";search("");box.blur()}
 else return;
 event.preventDefault()}
// 9. The page: its parts, keys and buttons.
const HATCH=`<svg width="0" height="0" class="defs" aria-hidden="true"><defs>
<pattern id="stripes" width="6" height="6" patternUnits="userSpaceOnUse" patternTransform="rotate(-45)">
<rect width="1.6" height="6" fill="var(--ink)" fill-opacity=".55"/></pattern>
<pattern id="grains" width="6" height="6" patternUnits="userSpaceOnUse"><circle cx="1.5" cy="1.5" r="1.1" fill="var(--ink)" fill-opacity=".6"/>
<circle cx="4.5" cy="4.5" r="1.1" fill="var(--ink)" fill-opacity=".6"/></pattern>
<pattern id="hatch" width="5" height="5" patternUnits="userSpaceOnUse" patternTransform="rotate(45)">
<rect width="5" height="5" fill="var(--paper)" fill-opacity=".55"/>
<rect width="1.5" height="5" fill="var(--ink)" fill-opacity=".8"/></pattern>
<pattern id="dots" width="4" height="4" patternUnits="userSpaceOnUse">
<rect width="4" height="4" fill="var(--paper)"/><circle cx="2" cy="2" r="1" fill="var(--soft)"/></pattern></defs></svg>`;
let current=null,timeLine=null,allDrawn=false;
function fileName(){ // The name of the page's file. One that is not UTF-8 stays encoded.
 const name=location.pathname.split("/").pop();
 try{return decodeURIComponent(name)}catch{return name}}
function build(){
 const file=fileName().replace(/\.html?$/,""),title=items[0].comment||"";
 document.title=(file||"mvsjob")+(title&&": "+title);
 const button=(key,title,text)=>`<button data-key="${key}" title="${title} (${KEYS[key].shown})">${text}</button>`;
 document.body.insertAdjacentHTML("afterbegin",`<header id="head"><h1>${plain(title||file||"A job, statement by statement")}</h1>
<div id="search"><input type="search" id="find" placeholder="find" aria-label="find a name, task, address or code">
<span id="found" aria-live="polite"></span></div>
<div id="buttons" role="toolbar" aria-label="statements">${button("Home","first","\u21e4")}
${button("ArrowLeft","previous","\u2190")}<span id="position" aria-live="polite"></span>
${button("ArrowRight","next","\u2192")}${button("End","last","\u21e5")}${button("r","next refused","next \u2715")}
<button data-key="a" title="all statements (a)" aria-pressed="false">all</button>
${button("?","keys","?")}</div></header>${alarm()}${comparison()}<div id="time"></div>
<div id="stage"><ol id="list" aria-label="the script"></ol><main id="now"></main><aside id="side"></aside></div>
<dialog id="note"></dialog>${HATCH}`);
 for(const item of listing())byId("list").append(item.only?listedOther(item.only):listed(item));
 for(const button of document.querySelectorAll("#buttons button"))button.onclick=KEYS[button.dataset.key].act;
 byId("find").oninput=event=>search(event.target.value);byId("find").onkeydown=onSearchKey;
 byId("now").onclick=event=>{const map=event.target.closest(".map");if(map)zoomAt(map,event.clientX)};
 byId("side").onclick=event=>{const button=event.target.closest("[data-sort]");if(button)sortNames(button.dataset.sort)};
 document.body.addEventListener("click",event=>{
  const link=event.target.closest("a.note");if(!link)return;
  event.preventDefault();showNote(decodeURIComponent(link.hash.slice(1)))});
 ROOT.classList.add("on")}
function sortNames(key){
 if(key==="all")nameList.all=!nameList.all;
 else if(nameList.column===key)nameList.down=!nameList.down;
 else Object.assign(nameList,{column:key,down:key!=="name"&&key!=="at"});
 draw()}
function showDialog(inside){ // Shows a note over the page, until Escape or a click.
 const note=byId("note");note.innerHTML=`${inside}<button>close</button>`;note.querySelector("button").onclick=()=>note.close();
 if(!note.open)note.showModal()}
function showNote(key){
 const number=key.startsWith("rule")?key.slice(4):"",title=number?"Rule "+number:key,option=number?"--rule "+number:`--code '${key}'`;
 showDialog(`<h2>${title}</h2><p>${plain(noteOf(key))}</p><p><code>mvsjob ${option}</code> prints more.</p>`)}
function showKeys(){
 const rows=Object.values(KEYS).filter(({title})=>title).map(({shown,title})=>`<tr><td><kbd>${shown}</kbd></td><td>${title}</td></tr>`);
 const enter="<tr><td><kbd>Enter</kbd></td><td>next statement found, with Shift the previous one</td></tr>";
 showDialog(`<h2>Keys</h2><table>${rows.join("")}${enter}</table>`)}
function alarm(){
 const lines=wrong.slice(0,9).join(", ");
 return lines&&`<p id="wrong" role="alert">The picture does not agree with what was printed in line ${lines}. Trust the printed lines.</p>`;
}
function listed(item){
 const element=document.createElement("li"),{line="",comment,ending}=item;
 const[kind,inside]=comment!==undefined?["comment",plain(comment)]:ending!==undefined?["ending",plain(ending)+leakSummary(item)]
  :[`statement ${item.result}${item.index%2?" barred":""}${differs(item)?" differs":""}`,
   `${broken(item.code)}<u>${plain(brief(item))}</u>${replyBeside(item)}`];
 element.className=kind;element.innerHTML=`<i>${line}</i><span>${inside}</span>`;
 if(item.code)element.onclick=()=>go(item.index);
 if(ending!==undefined)element.onclick=()=>showEnd(item);
 item.element=element;return element}
const replyBeside=item=>!differs(item)?"":`<u class="beside">other run: ${item.pair?plain(brief(item.pair)):"no such statement"}</u>`;
function listedOther(statement){ // A statement that only the other run has.
 const element=document.createElement("li");element.className="other";
 element.innerHTML=`<i>+</i><span>${broken(statement.code)}<u>${plain(brief(statement))}</u></span>`;
 return element}
const bytesOf=list=>list.reduce((sum,{length})=>sum+length,0);
function leakParts(step){ // What is left at the end of a step: areas and pools, each as a number and the sum of the bytes.
 const list=leaks.get(step)||[],parts=[list.filter(({pool})=>!pool),list.filter(({pool})=>pool)];
 const sum=(list,word)=>list.length?[count(list.length,word),count(bytesOf(list),"byte")]:null;
 return{list,areas:sum(parts[0],"area"),pools:sum(parts[1],"pool")}}
function leakSummary({step}){
 const{areas,pools}=leakParts(step),says=[areas&&`${areas[0]} never released, ${areas[1]}`,pools&&`${pools[0]} never deleted, ${pools[1]}`];
 return says.some(Boolean)?`<u>${says.filter(Boolean).join("<br>")}</u>`:""}
function showEnd({ending,step}){ // The end of a step, with the areas that were never released and the pools that were never deleted.
 const{list,areas,pools}=leakParts(step),says=[areas&&`Never released: ${areas.join(", ")}.`,pools&&`Never deleted: ${pools.join(", ")}.`];
 const rows=list.map(({name,at,length,subpool,since})=>{
  const set=script[since];
  return`<tr><td>${name}</td><td>${length}</td><td>${hex(at)}</td><td>${subpool}</td><td>${plain(set.task)}, ${lineLink(set)}</td></tr>`});
 const table=`<table><tr><th>area</th><th>bytes</th><th>address</th><th>subpool</th><th>obtained</th></tr>${rows.join("")}</table>`;
 const text=says.filter(Boolean).join(" ")||"Each area was released, and each pool was deleted.";
 showDialog(`<h2>End of the step</h2><pre>${plain(ending)}</pre><p>${text}</p>${list.length?table:""}`)}
function showEndOfStep(){ // The end of the step that the current statement is in.
 const end=items.find(({ending,step})=>ending!==undefined&&step===stepOf(current));if(end)showEnd(end)}
function brief({printed,task}){ // What a statement printed, in short.
 const lines=printed.split("\n"),cut=lines.length>4||(printed.length>400&&lines.length>3);
 const shown=lines.slice(0,cut?2:lines.length).map(line=>line.replace(/^\d+ /,"").replace(task+" ",""));
 return shown.join("\n")+(cut?"\n\u2026":"")}
function draw(){
 const state=replay(current),width=byId("now").clientWidth||700,{line,comments,code,result,printed,why}=current;
 byId("now").innerHTML=`<div id="reply">${comments.length?`<p class="comment">${comments.map(plain).join("<br>")}</p>`:""}
<h2><i>${line}</i>${broken(code)}</h2><pre class="printed ${result}">${linked(printed)}</pre><p class="why">${linked(why)}</p></div>`
  +drawCloseUp(state,width,current.window)+bytesTable(state,current.window,width)+historyTable(state,current.window)
  +drawRuns(state,width)+keyOf(STORAGE_KEY);
 byId("side").innerHTML=`<h3>tasks and their subpools</h3>${tree(state,false)}${nameTable(state)}`;
 byId("position").textContent=`line ${line} of ${script.at(-1).line}${result==="ok"?"":" \u2715"}`;
 for(const cursor of document.querySelectorAll(".cursor"))cursor.setAttribute("x",round(timeLine.margin+current.index*timeLine.step));
 showLane(current.task);
 const before=document.querySelector("#list [aria-current]");if(before)before.removeAttribute("aria-current");
 current.element.setAttribute("aria-current","step");scrollListing(byId("list"),current.element)}
function scrollListing(list,{offsetTop,offsetHeight}){
 const inside=offsetTop>=list.scrollTop+40&&offsetTop+offsetHeight<=list.scrollTop+list.clientHeight-40;
 if(list.scrollHeight>list.clientHeight&&!inside)list.scrollTop=offsetTop-list.clientHeight/2}
function showLane(task){ // Scrolls the timeline to the lane of a task.
 const lane=byId("lanes"),y=timeLine.rows.get(task);if(y===undefined)return;
 if(y-14<lane.scrollTop||y+14>lane.scrollTop+lane.clientHeight)lane.scrollTop=y-lane.clientHeight/2}
function go(index){
 const next=script[max(0,min(script.length-1,index))];if(next===current)return;
 current=next;draw();history.replaceState({depth},"","#l"+next.line)}
function goToAddress(){ // Shows the statement that the address names.
 const named=script.find(statement=>"#l"+statement.line===location.hash)||script[0];
 if(named!==current){current=named;draw()}}
function resize(){
 const time=byId("time");timeLine=drawTimeLine(max(300,time.clientWidth-18));time.innerHTML=timeLine.svg+keyOf(TIME_KEY);
 const indexAt=({clientX})=>floor((clientX-time.querySelector("svg").getBoundingClientRect().left-timeLine.margin)/timeLine.step);
 for(const svg of time.querySelectorAll(":scope>svg,#lanes>svg")){
  svg.onclick=event=>go(indexAt(event));
  svg.onmousemove=event=>{const statement=script[indexAt(event)];time.title=statement?`${statement.line} ${statement.code}`:""}}
 if(current)draw()}
function drawAll(){ // Draws figures beside statements that changed something.
 if(allDrawn)return;
 allDrawn=true;ROOT.classList.add("figures");let left=500,state=new State(-1);
 for(const statement of script){
  state=apply(state,statement);const{done}=state,touched=placesOf(done).length>0;
  const changed=touched||[done.entries,done.ended,done.attached,done.lost].some(list=>list.length)||!statement.index;
  if(changed&&(left||statement.result==="ok"))statement.article.append(figure(state,touched,left));
  if(changed&&left)left--}}
function figure(state,touched,left){
 const element=document.createElement("figure"),{window}=state.statement;
 const closeUp=left&&window&&touched?drawCloseUp(state,640,window,true):"";
 if(!left)element.textContent="(no picture: more than 500)";
 else element.innerHTML=`<div>${closeUp}${drawRegions(state,640,6,true)}</div><div>${tree(state,true)}</div>`;
 return element}
function toggleAll(){ // Shows all statements, or one again.
 drawAll();
 const all=ROOT.classList.toggle("wall");document.querySelector("[data-key=a]").setAttribute("aria-pressed",all);
 if(all&&current.index)current.article.scrollIntoView()}
const key=(shown,title,act)=>({shown,title,act}),move=by=>()=>go(current.index+by);
const KEYS={ // What keys and buttons do. A key without a title does what the one before it does.
 ArrowRight:key("\u2192","next statement",move(1)),ArrowDown:key("","",move(1)),
 ArrowLeft:key("\u2190","previous statement",move(-1)),ArrowUp:key("","",move(-1)),
 PageDown:key("Page Down","ten statements forward",move(10)),PageUp:key("Page Up","ten statements back",move(-10)),
 Home:key("Home","first statement",()=>go(0)),End:key("End","last statement",()=>go(script.length)),
 "/":key("/","find a name, task, address or code",()=>byId("find").focus()),
 n:key("n","next statement found",()=>seek("found",1)),N:key("N","previous statement found",()=>seek("found",-1)),
 r:key("r","next refused statement",()=>seek("refused",1)),R:key("R","previous refused statement",()=>seek("refused",-1)),
 t:key("t","next statement of this task",()=>seek("task",1)),T:key("T","previous statement of this task",()=>seek("task",-1)),
 s:key("s","next statement with this subpool",()=>seek("subpool",1)),S:key("S","previous statement with this subpool",()=>seek("subpool",-1)),
 m:key("m","next statement with this name",()=>seek("name",1)),M:key("M","previous statement with this name",()=>seek("name",-1)),
 d:key("d","next statement that differs (of two runs)",()=>seek("differs",1)),
 D:key("D","previous statement that differs",()=>seek("differs",-1)),
 b:key("b","back after a jump",back),
 e:key("e","end of the step: what was never released",showEndOfStep),z:key("z","zoom the map to the close-up, or out again",zoomHere),
 a:key("a","all statements",toggleAll),"?":key("?","these keys",showKeys)};
function onKey(event){
 if(event.ctrlKey||event.metaKey||event.altKey||!KEYS[event.key]||byId("note").open||event.target.tagName==="INPUT")return;
 if(ROOT.classList.contains("wall")&&event.key!=="a")return;
 KEYS[event.key].act();event.preventDefault()}
function start(){
 readItems();if(!script.length)return;
 survey();pairRuns();build();resize();goToAddress();addEventListener("keydown",onKey);addEventListener("resize",resize);
 history.replaceState(history.state||{depth:0},"");noteDepth();
 addEventListener("hashchange",()=>{noteDepth();goToAddress()});addEventListener("beforeprint",drawAll)}
addEventListener("DOMContentLoaded",()=>{ // Where this fails, the items stand as without a script.
 try{start()}catch(problem){
  ROOT.className="";for(const id of["head","time","stage"])if(byId(id))byId(id).remove();
  throw problem}});
