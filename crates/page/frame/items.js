"use strict";
// The script of a page. It (1) has helpers, (2) reads the items, (3) computes the state from the lines of change alone, (4) draws
// storage, (5) the tasks and names, (6) goes through all statements once and draws the timeline, (7) compares two runs,
// (8) searches, (9) builds the page.
// RULES_AND_CODES
// 1. Helpers: numbers, ranges, and shapes. A range begins at an address, and has a length.
const PAGE=4096,BELOW=0x6000/PAGE,ABOVE=0x1000000/PAGE,ROOT=document.documentElement,byId=id=>document.getElementById(id);
const hex=(number,digits=8)=>number.toString(16).toUpperCase().padStart(digits,"0"),{abs,ceil,floor,max,min}=Math;
const rangeOf=(at,length)=>({at:parseInt(at,16),length:parseInt(length,16)}),offset=number=>"+"+hex(number,3);
const broken=text=>plain(text).replace(/,/g,",<wbr>"); // A statement may be broken after its commas.
const count=(number,word)=>`${number} ${word}${number===1?"":"s"}`,plain=text=>text.replace(/&/g,"&amp;").replace(/</g,"&lt;");
const round=number=>+number.toFixed(2),end=range=>range.at+range.length,overlap=(one,other)=>one.at<end(other)&&end(one)>other.at;
const pageOf=at=>floor(at/PAGE),rounded=length=>ceil(length/8)*8;
// A subpool has one of seven hues and one of three patterns, so that 21 subpools look different.
const HUES=7,PATTERNS=3,patternOf=({colour})=>floor(colour/HUES)%PATTERNS;
const hueOf=subpool=>`h${subpool.colour%HUES}${patternOf(subpool)?" p"+patternOf(subpool):""}`;
const named=subpool=>`SP ${subpool.number} of ${subpool.owner}`;
function pagesOf(range){
 const pages=[];for(let page=pageOf(range.at);page*PAGE<end(range);page++)pages.push(page);
 return pages}
// Rules and codes as links: the sentence is the tooltip, and a click shows it. A line is a link to its statement.
const quoted=text=>plain(text).replace(/"/g,"&quot;");
const noteOf=key=>key.startsWith("rule")?RULES[key.slice(4)]:CODES[key];
const noteLink=(key,text)=>noteOf(key)?`<a class="note" href="#${key}" title="${quoted(noteOf(key))}">${text}</a>`:text;
const linked=text=>plain(text).replace(/\(rules? [0-9, ]+\)|\b(?:S[0-9A-F]{3}|U4[0-9]{3}|JS0[1-9]|RC 4|NO CELL|NOT RUN|NO NAME)\b/g,
 found=>found[0]==="("?found.replace(/[0-9]+/g,number=>noteLink("rule"+number,number)):noteLink(found,found));
const lineLink=({line},text="line "+line)=>`<a href="#l${line}">${text}</a>`;
// The characters of the bytes from X'40' on, in code page 037; a point is none of ASCII.
const CHARACTERS=" ...........<(+|&.........!$*);.-/.........,%_>?.........`:#@'=\".abcdefghi.......jklmnopqr.......~s"
 +"tuvwxyz......^.........[]....{ABCDEFGHI......}JKLMNOPQR......\\.STUVWXYZ......0123456789......";
const character=byte=>byte<0x40?".":CHARACTERS[byte-0x40];
// Parts of a picture, as SVG. A kind is a class of the style.
const words=(x,y,text,size,kind="")=>
 `<text x="${round(x)}" y="${round(y)}" font-size="${size}" class="${kind}">${plain(text)}</text>`;
const rect=(x,y,width,height,kind)=>
 `<rect x="${round(x)}" y="${round(y)}" width="${round(width)}" height="${round(height)}" class="${kind}"/>`;
const path=(line,kind,title="")=>`<path d="${line}" class="${kind}">${title&&`<title>${title}</title>`}</path>`;
function hued(subpool,inside){ // Shapes in the hue of a subpool, and once more with its pattern.
 if(!subpool)return inside;
 const patterned=patternOf(subpool)?`<g class="pattern" aria-hidden="true">${inside.replace(/<title>[^<]*<\/title>/g,"")}</g>`:"";
 return`<g class="${hueOf(subpool)}">${inside}${patterned}</g>`}
function picture(width,height,title,description,inside){
 return`<svg role="img" width="${width}" height="${height}" viewBox="-2 0 ${width+2} ${height}">
<title>${title}</title><desc>${plain(description)}</desc>${inside}</svg>`;
}
// A bar in the hue of a subpool, filled in proportion to what is held.
const level=(subpool,x,y,width,height,share)=>
 hued(subpool,rect(x,y,width,height,"band")+rect(x,y+height*(1-share),width,height*share,"level"));
// 2. The items: comments, statements (the script), and ends of steps. With --with the items of another run follow a line.
const items=[],script=[],other={items:[],script:[]};
function readItems(){ // Reads the items, and puts them into a section.
 const all=document.createElement("section");let run={items,script};all.id="all";
 for(const element of[...document.body.children]){
  if(element.id==="with")run=other;
  else readItem(run,element);
  if(run===other)element.removeAttribute("id");
  all.appendChild(element)}
 document.body.appendChild(all)}
function readItem(run,element){
 const line=element.id.slice(1),text=element.textContent;
 if(element.tagName==="P"){
  if(text.trim())run.items.push({line,comment:text.replace(/^\*\s?/,"")});
 }else if(element.tagName==="PRE")run.items.push({ending:text.replace(/\n$/,"")});
 else if(element.tagName!=="ARTICLE")return;
 else if(element.nextSibling)readStatement(run,line,element);
 else run.items.push({ending:`The page ends in line ${line}: what follows was not written.`})}
function readStatement({items,script},line,article){ // Reads a statement; the end of a step before it is an item.
 const code=article.querySelector("h2 code").textContent,[task,,operand]=code.split(/ +/);
 const printed=article.querySelector("pre:not(.d)").textContent.replace(/\n$/,"").replace(/^STEP ENDED.*\n/,ending=>{
  items.push({ending:ending.trim()});return""});
 const changes=article.querySelector("pre.d"),lines=changes?changes.textContent.split("\n").filter(Boolean):[],comments=[];
 for(let k=items.length-1;k>=0&&items[k].comment!==undefined;k--)comments.unshift(items[k].comment);
 const statement={
  line,article,code,task,operand,printed,comments,result:article.className,index:script.length,
  why:article.querySelector("p").textContent.trim(),changes:lines.map(change=>change.split(" ")),
  begins:lines.length>0&&lines[0].startsWith("STEP ")};
 const before=script.at(-1);statement.step=statement.begins||!before?statement.index:before.step;script.push(statement);
 items.push(statement)}
/* 3. The state. areas: what is held, by address, parts of pools too. pages: what is held of each. names: the place that each was
 last set to. done: what the last statement did. since: the index of the statement that something is from. */
class State{
 constructor(step,below=0,above=0,fill="00"){
  Object.assign(this,{step,below:+below,above:+above,fill:parseInt(fill,16),tasks:new Map(),ended:[],subpools:new Map(),colours:0,
   areas:[],pools:new Map(),names:new Map(),pages:new Map(),bytes:new Map()})}
 begin(statement){
  this.statement=statement;this.index=statement.index;
  this.done={granted:[],freed:[],read:[],written:[],asked:[],cells:[],returned:[],entries:[],lost:[],attached:[],ended:[]}}
 areaAfter(at){ // The index of the first area that ends after an address.
  let low=0,high=this.areas.length;
  while(low<high){
   const middle=(low+high)>>1;
   if(end(this.areas[middle])<=at)low=middle+1;else high=middle}
  return low}
 areasIn(range){
  const found=[];
  for(let k=this.areaAfter(range.at);k<this.areas.length&&this.areas[k].at<end(range);k++)found.push(this.areas[k]);
  return found}
 wholeArea(page){ // The area of more than two pages that fills a page.
  const area=this.areas[this.areaAfter(page*PAGE)];
  const whole=area&&!area.pool&&area.length>2*PAGE&&area.at<=page*PAGE&&end(area)>=(page+1)*PAGE;return whole?area:null}
 subpoolOf(page){const found=this.pages.get(page);return found?found.subpool:null}
 account(area,sign){ // Adds an area to its pages (sign 1), or takes it away (-1).
  area.subpool.held+=sign*area.length;
  for(const page of pagesOf(area)){
   const before=this.pages.get(page),part=min(end(area),(page+1)*PAGE)-max(area.at,page*PAGE),held=(before?before.held:0)+sign*part;
   this.pages.set(page,{held,subpool:held?area.subpool:null,since:this.index})}}
 // The bytes that differ from the fill byte of a grant are noted by their addresses.
 fillBytes({at,length}){
  if(length<this.bytes.size)for(let k=at;k<at+length;k++)this.bytes.delete(k);
  else for(const k of this.bytes.keys())if(k>=at&&k<at+length)this.bytes.delete(k)}
 writeBytes(at,values){values.forEach((value,k)=>this.bytes.set(at+k,value))}
 readBytes({at,length}){return Array.from({length},(_,k)=>this.bytes.has(at+k)?this.bytes.get(at+k):this.fill)}
 mayRead(at){ // Whether a byte was obtained, outside of pools or as a cell.
  const[area]=this.areasIn({at,length:1});
  if(!area||!area.pool)return!!area;
  const{pool,part}=area,cell=part.cells+floor((at-part.cells)/pool.size)*pool.size;
  return at>=part.cells&&cell+pool.size<=part.cells+part.count*pool.size&&pool.taken.has(cell)}
 grant(area){
  if(!area.pool)this.fillBytes(area);
  Object.assign(area,{first:area.at,since:this.index});this.areas.splice(this.areaAfter(area.at),0,area);
  this.account(area,1);this.done.granted.push(area)}
 noteFreed(area){this.done.freed.push(area);this.account(area,-1)}
 free(range){ // Frees a range, in which areas may lie in part.
  const found=this.areasIn(range),kept=[];
  for(const area of found){
   const from=max(range.at,area.at),to=min(end(range),end(area)),cut=(at,stop)=>({...area,at,length:stop-at});
   if(area.at<from)kept.push(cut(area.at,from));
   if(to<end(area))kept.push(cut(to,end(area)));
   this.noteFreed(cut(from,to))}
  this.areas.splice(this.areaAfter(range.at),found.length,...kept)}
 freeAll(test){
  const found=this.areas.filter(test);this.areas=this.areas.filter(area=>!test(area));
  found.forEach(area=>this.noteFreed(area))}
 drop(pool){pool.gone=true;this.freeAll(area=>area.pool===pool);this.pools.delete(pool.name)}
 empty(subpool){
  for(const pool of this.pools.values())if(pool.subpool===subpool)this.drop(pool);
  this.freeAll(area=>area.subpool===subpool)}
 enter(task,number,subpool,how){this.tasks.get(task).subpools.set(+number,{subpool,how,since:this.index});this.done.entries.push(task)}
 lose(name,number){
  const task=this.tasks.get(name),entry=task&&task.subpools.get(+number);if(!entry)return;
  task.subpools.delete(+number);this.done.lost.push({name,number:+number,entry})}
 subpool(number,owner){ // A subpool by its owner and number; where it was not named before, a new one.
  const known=this.subpools.get(`${number} ${owner}`);if(known)return known;
  const subpool={number:+number,owner,colour:this.colours++%(HUES*PATTERNS),held:0};this.subpools.set(`${number} ${owner}`,subpool);
  this.enter(owner,number,subpool,"owned");return subpool}
 give(number,from,to){
  const subpool=this.subpool(number,from);this.lose(from,number);this.subpools.delete(`${number} ${from}`);
  subpool.owner=to;this.subpools.set(`${number} ${to}`,subpool);this.enter(to,number,subpool,"given")}
 endTask(name,how){
  const task=this.tasks.get(name),code=/ABEND \S+/.exec(this.statement.printed);
  for(const[key,subpool]of this.subpools)if(subpool.owner===name)this.removeSubpool(key,subpool);
  this.tasks.delete(name);
  Object.assign(task,{end:how==="ABEND"&&code?code[0]:how,endIndex:this.index,endLine:this.statement.line});
  this.ended.push(task);this.done.ended.push(name)}
 removeSubpool(key,subpool){ // A subpool goes with its owner: the tasks that stay lose it.
  const ending=this.statement.changes.filter(change=>change[0]==="END").map(change=>change[1]);this.empty(subpool);
  subpool.removed=this.index;this.subpools.delete(key);
  for(const task of this.tasks.values()){
   if(ending.includes(task.name))continue;
   for(const[number,entry]of task.subpools)if(entry.subpool===subpool)this.lose(task.name,number)}}
 missing(name){return this.missingOf(this.names.get(name))}
 missingOf(place){ // How many bytes of a place, as it was obtained, have been freed.
  const{pool}=place;
  if(pool){const cell=pool.gone?undefined:pool.taken.get(place.at);return cell&&cell.since===place.since?0:place.length}
  return this.areasIn(place).reduce((left,area)=>(area.grant===place.grant?left-area.length:left),place.length)}
 isStale(name){return this.missing(name)===this.names.get(name).length}}
const CHANGES={ // What each line of change does to the state.
 TASK(state,name,MOTHER,mother,RES,resides){
  const task={name,mother:mother==="-"?null:mother,resides,subpools:new Map(),since:state.index};
  state.tasks.set(name,task);state.ended=state.ended.filter(old=>old.name!==name);state.done.attached.push(name)},
 HAS(state,task,number,how,...of){
  if(how==="GIVEN")state.give(number,of[0],task);else state.enter(task,number,state.subpool(...of),"shared")},
 TAKE(state,at,length,number,owner,name){
  const range=rangeOf(at,length),grant=`${state.index}:${name}`;
  state.grant({...range,name,grant,subpool:state.subpool(number,owner)});
  state.names.set(name,{...range,grant,since:state.index})},
 FREE(state,at,length){const range=rangeOf(at,length);state.free({...range,length:rounded(range.length)})},
 EMPTY:(state,number,owner)=>state.empty(state.subpool(number,owner)),
 POOL(state,name,number,owner,size){
  state.pools.set(name,{name,subpool:state.subpool(number,owner),size:+size,parts:new Set(),taken:new Map(),since:state.index})},
 PART(state,name,at,length,cells){
  const pool=state.pools.get(name),range=rangeOf(at,length);if(pool.parts.has(range.at))return;pool.parts.add(range.at);
  const part={...range,count:+cells,cells:end(range)-rounded(cells*pool.size)};
  state.grant({...range,name:"pool "+name,grant:`${state.index}:${name}`,subpool:pool.subpool,pool,part})},
 CELL(state,name,at,length,cell){
  const pool=state.pools.get(name),range=rangeOf(at,length);pool.taken.set(range.at,{name:cell,since:state.index});
  state.fillBytes(range);
  state.names.set(cell,{...range,pool,since:state.index});state.done.cells.push({at:range.at,length:8})},
 BACK(state,name,at){
  const pool=state.pools.get(name),cell={at:parseInt(at,16),length:pool.size};state.done.returned.push(cell);
  pool.taken.delete(cell.at)},
 DROP:(state,name)=>state.drop(state.pools.get(name)),
 READ:(state,at,length)=>state.done.read.push(rangeOf(at,length)),
 WRITE(state,at,length,digits){
  const range=rangeOf(at,length);state.done.written.push(range);
  state.writeBytes(range.at,digits.match(/../g).map(byte=>parseInt(byte,16)))},
 LOOK:(state,at,length)=>state.done.asked.push(rangeOf(at,length)),
 END:(state,name,...how)=>state.endTask(name,how.join(" "))};
function apply(before,statement){ // The state after the next statement.
 const{changes}=statement,state=statement.begins?new State(before.step+1,changes[0][2],changes[0][4],changes[0][6]):before;
 state.begin(statement);for(const[word,...operands]of changes)if(CHANGES[word])CHANGES[word](state,...operands);
 return state}
const replay=(statement,list=script)=>list.slice(statement.step,statement.index+1).reduce(apply,new State(-1));
// All places that a statement touched.
const placesOf=({granted,freed,read,written,asked,returned,cells})=>granted.concat(freed,written,read,asked,returned,cells);
function cellsIn({pool,part},range,index){ // The cells of a part that lie in a range.
 const cells=[];
 for(let k=max(0,floor((range.at-part.cells)/pool.size));k<part.count;k++){
  const cell={at:part.cells+k*pool.size,length:pool.size},taken=pool.taken.get(cell.at);if(cell.at>=end(range))break;
  const kind="cell"+(taken?" taken":"")+(taken&&taken.since===index?" new":"");
  if(overlap(cell,range))cells.push({...cell,taken,kind})}
 return cells}
