// 5. The tree of tasks: active, ended now, and of late.
function tree(state,small){
 const old=state.ended.filter(task=>task.endIndex!==state.index),hidden=max(0,old.length-8);
 const now=state.ended.filter(task=>task.endIndex===state.index);
 const tasks=[...state.tasks.values(),...now,...old.slice(hidden)].sort((one,other)=>one.since-other.since);
 const names=new Set(tasks.map(task=>task.name)),below=new Map([["",[]],...tasks.map(task=>[task.name,[]])]);
 for(const task of tasks)below.get(names.has(task.mother)?task.mother:"").push(task);
 const svg=mother=>below.get(mother).map(task=>taskItem(state,task,small,svg(task.name)));
 return`<ul class="tree">${svg("").join("")}</ul>${hidden?`<p class="remark">${hidden} more ended earlier</p>`:""}`}
function taskItem(state,task,small,below){ // A task, its subpools, and the tasks that it attached.
 const ended=task.end!==undefined,now=ended&&task.endIndex===state.index,kinds=[];
 if(ended)kinds.push("ended");else if(task.name===state.statement.task)kinds.push("active");
 if(now&&task.end!=="RETURN")kinds.push("fell");
 const has=ended&&!now?[]:[...task.subpools],lost=state.done.lost.filter(({name})=>name===task.name);
 const chips=has.map(([number,entry])=>chip(state,task,number,entry,ended,small))
  .concat(lost.map(({number,entry})=>chip(state,task,number,entry,true,small)));
 return`<li class="${kinds.join(" ")}"><span class="task">${task.name}</span>${taskRemark(task)}`
  +(chips.length?`<div class="chips">${chips.join("")}</div>`:"")+(below.length?`<ul>${below.join("")}</ul>`:"")+"</li>"}
function taskRemark({end,endLine,resides}){
 let remark=resides==="ABOVE"?"resides above":"";
 if(end)remark=`${end==="RETURN"?"returned":end.replace("ABEND ","").replace("WITH","ended with")}, line ${endLine}`;
 return remark&&`<span class="remark">${remark}</span>`}
function chip(state,task,number,{subpool,how,since},lost,small){ // A subpool that a task has or has lost.
 const isNew=!lost&&since===state.index,holds=count(subpool.held,"byte"),kept=task.end&&subpool.removed===undefined;
 const has={owned:"owned",given:"given, owned",shared:`shared, ${subpool.owner}\u2019s`}[how];
 const kinds=`chip${how==="shared"?" shared":""}${isNew?" new":""}${lost?(kept?" kept":" lost"):""}`;
 const says=lost?lossOf(state,task,subpool):has+(subpool.held&&!small?", "+holds:"");
 const details=task.subpools.size<=4||isNew||lost?`<small>${says}</small>`:"";
 const title=`subpool ${number}: ${lost?"no more":`${has}, ${holds}`}`;
 return`<span class="${kinds} ${hueOf(subpool)}" title="${title}"><b>${number}</b>${details}</span>`}
function lossOf(state,task,{owner,removed}){
 if(task.end===undefined)return removed===undefined?"given to "+owner:"no more";
 if(removed!==state.index)return owner+" keeps it";
 return owner===task.name?"freed":"went with "+owner}
// The names, in an order that a click on a column changes.
const COLUMNS=[["name","name",name=>name],["bytes","length",(name,place)=>place.length],["address","at",(name,place)=>place.at],
 ["set in","since",(name,place)=>place.since]];
const nameList={column:"since",down:true,all:false};
function orderedNames(state){
 const[,,value]=COLUMNS.find(([,key])=>key===nameList.column),sign=nameList.down?-1:1;
 const compare=(one,other)=>one<other?-sign:one>other?sign:0;
 return[...state.names].sort((one,other)=>compare(value(...one),value(...other))||(one[0]<other[0]?-1:1))}
function nameTable(state){
 const names=orderedNames(state),shown=nameList.all?names:names.slice(0,20),arrow=key=>key===nameList.column?(nameList.down?" \u25be":" \u25b4"):"";
 if(!names.length)return"";
 const head=COLUMNS.map(([title,key])=>`<th><button data-sort="${key}">${title}${arrow(key)}</button></th>`).join("");
 const more=names.length>20?`<button data-sort="all">${nameList.all?"show 20":"show all "+names.length}</button>`:"";
 return`<h3>names</h3><div class="names"><table><tr>${head}</tr>${shown.map(entry=>nameRow(state,...entry)).join("")}</table></div>${more}`}
function nameRow(state,name,place){
 const kinds=(state.isStale(name)?"stale":"")+(place.since===state.index?" new":"")+(isLeak(place)?" leak":"");
 const remark=nameRemark(state,name,place),last=remark&&`<tr class="says"><td colspan="4">${remark}</td></tr>`;
 return`<tr class="${kinds}"><td>${name}</td><td>${place.length}</td><td>${hex(place.at)}</td><td>${lineLink(script[place.since])}</td></tr>${last}`}
function nameRemark(state,name,place){ // What a name names now.
 const[area]=state.areasIn(place),missing=state.missing(name),freed=missing&&freedOf(state,place);
 const ending=freed?`, freed in ${lineLink(freed)}`:"";
 if(missing<place.length){
  if(missing)return`${place.length-missing} of it left${ending}`;
  return place.pool?"cell of "+place.pool.name:isLeak(place)?"never released":""}
 if(!area)return"stale"+ending;
 const cell=area.pool&&area.pool.taken.get(place.at);
 return`stale${ending}; ${cell?cell.name:area.pool?"a free cell":area.name} is there now`}
// What the bytes of the close-up are: who obtained them, which statement wrote them last, which one freed them.
const lastOf=(list,{step,index},range,since)=>{ // The latest statement up to now that touched a range.
 const places=list.get(step)||[];
 for(let k=places.length-1;k>=0&&places[k].index>since;k--)if(places[k].index<=index&&overlap(places[k],range))return script[places[k].index];
 return null};
const freedOf=({step,index},place)=>{ // The first statement that freed some of a place since a name was set to it.
 const found=(frees.get(step)||[]).find(free=>free.index>place.since&&free.index<=index&&overlap(free,place));
 return found?script[found.index]:null};
function bytesTable(state,shown,width){ // The bytes of the close-up, in hexadecimal and as characters of EBCDIC.
 if(!shown)return"";
 const across=width<520?8:width<760?16:32,rows=[];
 for(let at=shown.at;at<end(shown);at+=across)rows.push(bytesRow(state,{at,length:min(across,end(shown)-at)}));
 return rows.some(Boolean)?`<table class="bytes"><caption>bytes, and EBCDIC</caption>${rows.join("")}</table>`:""}
function bytesRow(state,range){ // A row of bytes; nothing, if none of them was obtained. A written byte is a link to the statement that wrote it.
 const readable=state.readBytes(range).map((value,k)=>state.mayRead(range.at+k)?value:null);
 if(readable.every(value=>value===null))return"";
 let digits="",text="",last="";
 readable.forEach((value,k)=>{
  const byte={at:range.at+k,length:1},writer=value!==null&&state.bytes.has(byte.at)?lastOf(writes,state,byte,-1):null;
  const kind=value===null?"none":!writer?"fill":writer===state.statement?"wrote":"set",next=kind+(writer?writer.line:"");
  const title=writer&&`title="written by ${plain(writer.task)} in line ${writer.line}"`;
  const gap=k&&k%4===0?" ":"";
  if(next===last)digits+=gap;
  else{
   digits+=`${last&&"</a>"}${gap}<a class="${kind}"${writer?` href="#l${writer.line}" ${title}`:""}>`;
   text+=`${last&&"</span>"}<span class="${kind}">`}
  last=next;digits+=value===null?"\u00b7\u00b7":hex(value,2);text+=value===null?" ":plain(character(value))});
 return`<tr><td>${hex(range.at)}</td><td>${digits}</a></td><td>${text}</span></td></tr>`}
function historyTable(state,shown){ // The names of the close-up, and its areas whose names are set to another area now.
 if(!shown)return"";
 const unnamed=state.areasIn(shown).concat(state.done.freed.filter(area=>overlap(area,shown)))
  .filter(({pool,name,grant})=>!pool&&state.names.get(name).grant!==grant);
 const rows=[...state.names].filter(([,place])=>overlap(place,shown)).concat(unnamed.map(area=>[area.name,area]))
  .sort(([,one],[,other])=>one.at-other.at||other.since-one.since);
 const text=rows.slice(0,8).map(entry=>historyRow(state,...entry)).join("");
 return text&&`<table class="history"><tr><th>name</th><th>bytes</th><th>obtained</th><th>last written</th><th>freed</th></tr>${text}</table>`
  +(rows.length>8?`<p class="remark">${count(rows.length-8,"more name")} here</p>`:"")}
function historyRow(state,name,place){
 const set=script[place.since],written=lastOf(writes,state,place,place.since-1),missing=state.missingOf(place);
 const freed=missing?freedOf(state,place):null,now=state.names.get(name),until=now.since>place.since?`, until ${lineLink(script[now.since])}`:"";
 const at=statement=>statement?`${plain(statement.task)}, ${lineLink(statement)}`:"\u2013";
 return`<tr class="${missing===place.length?"stale":""}"><td>${name}${until}</td><td>${place.length}</td>
<td>${at(set)}</td><td>${at(written)}</td><td>${at(freed)}</td></tr>`}
// 6. All statements. A lane is a task; for each page, moments have its subpool and what is held.
const lanes=[],moments=new Map(),touchedPages=new Map(),wrong=[];
// By the step: the places that were written and freed, and the areas that were never released.
const writes=new Map(),frees=new Map(),leaks=new Map();
function survey(){ // Goes through all statements, and compares.
 const open=new Map();
 script.reduce((before,statement)=>{
  if(endsStep(before,statement))noteLeaks(before);
  const state=apply(before,statement),{index}=statement,last=script[index-1];if(statement.begins)closeStep(open,index);
  noteTasks(state,open);notePages(state);notePlaces(state,statement);
  statement.window=windowOf(state.done,last&&last.step===statement.step?last.window:null);
  statement.mark=markOf(statement,state.done);if(!agrees(state))wrong.push(statement.line);
  if(index===script.length-1)noteLeaks(state);
  return state;
 },new State(-1));
 let step=-1;for(const item of items)if(item.code)step+=item.begins;else item.step=step}
// Whether a statement ends a step: another one begins, or the job step task ends.
const endsStep=({tasks},{begins,changes})=>begins||changes.some(([word,name])=>word==="END"&&tasks.has(name)&&tasks.get(name).mother===null);
function noteLeaks({step,areas}){ // What is left of each area and then of each cell pool, the largest first; once for a step.
 if(step<0||leaks.has(step))return;
 const left=new Map();
 for(const{grant,name,at,length,subpool,pool}of areas){
  const key=pool||grant,since=pool?pool.since:parseInt(grant);
  const leak=left.get(key)||{grant:pool?null:grant,name,at,length:0,subpool:named(subpool),pool,since};leak.length+=length;left.set(key,leak)}
 leaks.set(step,[...left.values()].sort((one,other)=>!!one.pool-!!other.pool||other.length-one.length))}
const isLeak=({grant,since})=>{
 const statement=script[since],list=statement&&leaks.get(stepOf(statement));
 return!!grant&&!!list&&list.some(leak=>leak.grant===grant)};
const stepOf=statement=>script[statement.step].number;
function notePlaces({step,index,done},statement){ // Notes what a statement wrote, freed and used.
 if(statement.begins)statement.number=step;
 const note=(list,ranges)=>{
  if(!list.has(step))list.set(step,[]);
  for(const{at,length}of ranges)list.get(step).push({at,length,index})};
 note(writes,done.written);note(frees,done.freed.concat(done.returned));
 const subpools=done.granted.concat(done.freed).map(area=>named(area.subpool));
 statement.places=placesOf(done).map(({at,length})=>({at,length}));
 const said=statement.changes.filter(([word])=>word==="HAS"||word==="EMPTY"||word==="POOL").map(change=>subpoolIn(change));
 statement.subpools=new Set([...subpools,...said].filter(Boolean));
 for(const[word,...operands]of statement.changes)if(word==="TAKE"||word==="CELL")allNames.add(operands.at(-1));
 statement.text=[statement.code,statement.printed,statement.why].join("\n").toUpperCase()}
function subpoolIn([word,first,second,third,...rest]){ // The subpool of a line of change.
 if(word==="EMPTY")return`SP ${first} of ${second}`;
 if(word==="POOL")return`SP ${second} of ${third}`;
 return third==="GIVEN"?`SP ${second} of ${first}`:`SP ${rest[0]} of ${rest[1]}`}
const allNames=new Set(),namesIn=({code})=>new Set((code.match(/[A-Z@#$][A-Z0-9@#$]*/g)||[]).slice(1).filter(word=>allNames.has(word)));
function closeStep(open,index){
 for(const lane of open.values())lane.stop=index;
 open.clear();
 for(const[number,list]of moments)list.push({number,index,subpool:null,share:0})}
function noteTasks({index,done,tasks},open){
 for(const name of done.attached){
  const lane={name,first:index,stop:script.length,mother:tasks.get(name).mother};lanes.push(lane);open.set(name,lane)}
 for(const name of done.ended){if(open.has(name))Object.assign(open.get(name),{stop:index,ended:true});open.delete(name)}}
function notePages({step,index,done,pages}){
 if(!touchedPages.has(step))touchedPages.set(step,new Set());
 for(const number of new Set(done.granted.concat(done.freed).flatMap(pagesOf))){
  const page=pages.get(number);touchedPages.get(step).add(number);if(!moments.has(number))moments.set(number,[]);
  moments.get(number).push({number,index,subpool:page.subpool,share:page.held/PAGE})}}
function markOf({result},done){
 if(result==="ab"||result==="js")return"abend";
 if(result!=="ok")return"refused";
 if(done.granted.length||done.cells.length)return"grant";
 return done.freed.length||done.returned.length?"release":"tick"}
function agrees(state){ // Whether the state is what REPORT and WHERE printed.
 return state.statement.printed.split("\n").map(line=>line.split(" ")).every(fields=>{
  if(fields[2]==="SP"&&fields[3]!=="NONE")return agreesSubpool(state,fields);
  if(fields[2]==="MAP")return agreesMap(state,fields);
  if(fields[2]==="DATA")return agreesData(state,fields);
  const place=state.names.get(state.statement.operand);
  return fields[2]!=="AT"||(place!==undefined&&hex(place.at)===fields[3])})}
function agreesData({done,bytes,fill},[,,,offset,...digits]){
 const first=done.read[0].at+parseInt(offset.slice(1),16);
 return digits.join("").match(/../g).every((byte,k)=>parseInt(byte,16)===(bytes.has(first+k)?bytes.get(first+k):fill))}
function agreesSubpool(state,fields){
 const task=state.tasks.get(fields[1]),entry=task&&task.subpools.get(+fields[3]);
 if(!entry||(entry.subpool.owner===task.name)!==(fields[4]==="OWNED"))return false;
 const held=pooled=>state.areas.reduce((sum,area)=>area.subpool===entry.subpool&&!area.pool!==pooled?sum+area.length:sum,0);
 return held(false)===+fields[6]&&held(true)===+fields[8]}
function agreesMap(state,fields){
 return pagesOf(rangeOf(fields[3],fields[4])).every(page=>{
  const subpool=state.subpoolOf(page);
  return fields[5]==="FREE"?!subpool:subpool&&subpool.number===+fields[6]&&subpool.owner===fields[8]})}
function drawTimeLine(width){ // The time line: a column for each statement, a row for each task, a band for each page.
 const number=script.length,margin=width<600?64:104,step=min(96,(width-margin-14)/number),names=new Set(lanes.map(lane=>lane.name));
 for(const{result,task}of script)if(result!=="js")names.add(task);
 const tall=names.size<=6?17:15,bottom=14+names.size*tall,x=index=>round(margin+(index+.5)*step);
 const rows=new Map([...names].map((name,k)=>[name,14+(k+.5)*tall])),pages=[...moments.keys()].sort((one,other)=>one-other);
 const bands=min(pages.length,72),bandTall=bands&&min(15,78/bands),top=2,height=top+bands*bandTall+4;
 const refused=script.filter(({result})=>result!=="ok").length;
 const draw=(tall,title,description,inside)=>`<svg role="img" width="${width}" height="${tall}" viewBox="0 0 ${width} ${tall}">
<title>${title}</title><desc>${description}</desc>
<rect class="cursor" width="${max(2,step)}" height="${tall}"/>${inside}${drawSteps(tall)}</svg>`;
 const lanesText=`${count(number,"statement")}, ${refused} refused. Each column is a statement.`;
 const lanesDrawn=draw(bottom+4,"All statements: tasks as lines",lanesText,drawNumbers()+drawLanes()+drawMarks());
 const bandsDrawn=bands?draw(height,"All statements: pages","Each band is a page in the colour of its subpool.",drawPages()):"";
 return{margin,step,rows,svg:`<div id="lanes">${lanesDrawn}</div>${bandsDrawn}`};
 function drawNumbers(){ // The numbers of lines, as many as there is room for.
  const each=[1,2,5,10,20,50,100,200,500,1000].find(each=>each*step>=26)||2000,shown=script.filter(({index})=>index%each===0);
  const look=result=>"middle "+(result==="ok"||each>1?"soft":"bad bold");
  return shown.map(({index,line,result})=>words(x(index),9,line,10.5,look(result))).join("")}
 function drawLanes(){ // The lanes: each hangs below its mother's, and has a bar where it ends.
  let along="",across="",svg="";for(const[name,y]of rows)svg+=words(margin-8,y+4,name,12,"right");
  for(const{name,first,stop,mother,ended}of lanes){
   const y=rows.get(name);along+=`M${x(first)} ${y}H${stop>=number?margin+number*step:x(stop)}`;
   if(rows.has(mother))across+=`M${x(first)} ${rows.get(mother)}V${y}`;
   if(ended)across+=`M${x(stop)} ${y-tall*.32}V${y+tall*.32}`}
  return svg+path(along,"lane")+path(across,"lane")}
 function drawMarks(){
  const size=min(4.2,tall*.3,max(1.2,step*.4)),lines={tick:"",grant:"",release:"",refused:"",abend:""};
  for(const{mark,index,task}of script)lines[mark]+=MARKS[mark](x(index),rows.has(task)?rows.get(task):bottom-tall/2,size);
  return Object.keys(lines).map(mark=>path(lines[mark],mark)).join("")}
 function drawPages(){ // The pages ever held, each as a band, or some together.
  const note=(page,y)=>words(margin-8,y,hex(page*PAGE),10,"soft right"),pageAt=band=>floor(band*pages.length/bands);
  let svg="";
  for(let band=0;band<bands;band++){
   const y=top+band*bandTall,first=pageAt(band);if(bandTall>=9)svg+=note(pages[first],y+bandTall*.5+3);
   svg+=drawBand(pages.slice(first,pageAt(band+1)),y,bandTall-(bandTall>6?2:0))}
  return svg+(bands&&bandTall<9?note(pages[0],top+9)+note(pages.at(-1),height-4):"")}
 function drawBand(pages,y,height){ // A band: of its pages together, from moment to moment.
  const all=pages.flatMap(page=>moments.get(page)).sort((one,other)=>one.index-other.index),now=new Map();
  let from=0,svg="";
  for(const moment of[...all,{index:number}]){
   if(moment.index!==from)svg+=drawStretch([...now.values()],pages.length,from,moment.index,y,height);
   from=moment.index;now.set(moment.number,moment)}
  return svg}
 function drawStretch(now,pages,from,to,y,height){ // What a band holds for a while, in the hue of who holds most.
  let share=0,most=-1,subpool=null;
  for(const moment of now){
   share+=moment.share/pages;
   if(moment.subpool&&moment.share>most)[most,subpool]=[moment.share,moment.subpool]}
  return subpool?level(subpool,x(from),y,(to-from-(to===number?.5:0))*step,height,max(.12,share)):""}
 function drawSteps(height){
  const steps=script.filter(({index,begins})=>index&&begins);
  return steps.map(({index})=>path(`M${margin+index*step} 0V${height}`,"tick")).join("")}}
// The marks, as paths around a place.
const circle=(x,y,r)=>`M${x-r} ${y}a${r} ${r} 0 1 0 ${2*r} 0a${r} ${r} 0 1 0 ${-2*r} 0`;
const cross=(x,y,r)=>`M${x-r} ${y-r}l${2*r} ${2*r}m0 ${-2*r}l${-2*r} ${2*r}`;
const square=(x,y,r)=>`M${x-r} ${y-r}h${2*r}v${2*r}h${-2*r}z`;
const MARKS={
 tick:(x,y,r)=>`M${x} ${y-r*.8}v${r*1.6}`,
 grant:circle,release:circle,refused:cross,
 abend:(x,y,r)=>square(x,y,r+1)+cross(x,y,r-1.2)};
// The keys: the width of a picture, the picture, and words.
const box=(kind,text)=>[20,rect(1.5,1.5,17,9,kind),text],mark=(name,text)=>[14,path(MARKS[name](7,6,4),name),text];
const STORAGE_KEY=[
 box("area new","granted now"),box("area","held"),box("page","free, only for this subpool"),
 box("freed","freed now"),box("read","read"),box("written","written"),
 [0,"<s><i>X</i></s>","a stale name"],[20,rect(5,1,10,11,"doubleword"),"one doubleword"]];
const TIME_KEY=[
 mark("grant","granted"),mark("release","released"),mark("tick","other"),
 mark("refused","refused, the task continues"),mark("abend","abend, fault"),
 [26,level({colour:0},0,0,26,12,5/12),"a page: its subpool, and how much of it is held"]];
function keyOf(entries){
 const svg=entries.map(([width,inside,text])=>{
  const icon=`<svg width="${width}" height="12" viewBox="0 0 ${width} 12" aria-hidden="true" class="h0">${inside}</svg>`;
  return`<span>${width?icon:inside}${text}</span>`});
 return`<div class="key">${svg.join("")}</div>`}
