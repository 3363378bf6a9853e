// 4. Storage. A margin at the left holds addresses, a ruler at the right offsets.
function layoutOf(width,small){const narrow=width<520;return{narrow,margin:narrow?0:small?112:134,ruler:narrow||small?0:34}}
function shareHeld(state,first,stop){ // How much is held of some pages, and the subpool that holds most.
 let held=0,most=-1,subpool=null;
 for(let number=first;number<stop;number++){
  const page=state.pages.get(number);if(!page||!page.subpool)continue;held+=page.held;
  if(page.held>most)[most,subpool]=[page.held,page.subpool]}
 return{subpool,held,share:max(held?.02:0,Math.round(held/(stop-first)/PAGE*50)/50)}}
function strip(state,first,stop,x,y,width,height){ // Pages side by side in a bar: each column is a page or more.
 const pages=stop-first,columns=min(pages,floor(pages>width?width/3:width)),least=pages>width?.35:.06;
 const pageAt=column=>first+floor(column*pages/columns),runs=[];
 for(let column=0;column<columns;column++){
  const{subpool,share}=shareHeld(state,pageAt(column),pageAt(column+1)),last=runs.at(-1);
  if(last&&last.subpool===subpool&&last.share===share)last.stop++;else runs.push({column,stop:column+1,subpool,share})}
 const draw=run=>level(run.subpool,x+run.column*width/columns,y,max(.8,(run.stop-run.column)*width/columns),height,max(least,run.share));
 return rect(x,y,width,height,"strip")+runs.filter(run=>run.subpool).map(draw).join("")}
const zooms=new Map(); // By the first page of a region, the pages that its map shows.
const zoomOf=(first,stop)=>zooms.get(first)||{first,stop};
function zoomAround({dataset},middle){ // Shows an eighth of a map around a page, at least 64 pages; or all of it again.
 const{first,stop,from,to}=Object.fromEntries(Object.entries(dataset).map(([key,page])=>[key,+page]));
 if(to-from<stop-first)zooms.delete(first);
 else{
  const wide=max(64,ceil((to-from)/8)),start=max(first,min(stop-wide,floor(middle-wide/2)));
  zooms.set(first,{first:start,stop:min(stop,start+wide)})}
 draw()}
function zoomAt(map,clientX){
 const box=map.querySelector("rect").getBoundingClientRect(),{from,to}=map.dataset;
 zoomAround(map,+from+(clientX-box.left)/box.width*(to-from))}
function zoomHere(){ // Zooms the map around the close-up.
 const{window}=current,page=window&&pageOf(window.at),isIn=({dataset})=>page>=+dataset.first&&page<+dataset.stop;
 const map=window&&[...document.querySelectorAll("#now .map")].find(isIn);if(map)zoomAround(map,page+.5)}
function changedPages({done}){ // The pages that a statement changed; those that a long range fills are only marked.
 const changed=new Set(),marked=new Set(),note=(at,partly)=>(partly?changed:marked).add(pageOf(at));
 for(const range of placesOf(done)){
  if(range.length<=2*PAGE)pagesOf(range).forEach(page=>changed.add(page));
  else{note(range.at,range.at%PAGE);note(end(range)-1,end(range)%PAGE)}}
 return{changed,marked}}
function drawRegions(state,width,most,small,shown){ // The regions: some pages one by one, the rest as bars.
 const{narrow,margin,ruler}=layoutOf(width,small),columns=narrow?32:64,touched=touchedPages.get(state.step)||new Set();
 const room=floor((width-margin-ruler-2)/columns*2)/2,wide=small?min(room,8):room,across=wide*columns,size=small?9.5:11;
 const tall=small?7:narrow?10:touched.size<=1?15:touched.size<=2?13:11,many=state.below+state.above>24;
 const regions=[["below 16 MB",BELOW,BELOW+state.below]],descriptions=[],{changed,marked}=changedPages(state);
 if(state.above)regions.push(["above 16 MB",ABOVE,ABOVE+state.above]);
 const stale=[...state.names.keys()].filter(name=>state.isStale(name));
 const plan={state,columns,rows:512/columns,margin,ruler,wide,across,tall,size,small,shown,stale,descriptions},chosen=choose();
 let y=0,svg="";regions.forEach(region=>drawRegion(...region));
 return picture(margin+across+ruler+2,ceil(y),"Storage after the statement",descriptions.slice(0,60).join("; "),svg);
 function choose(){ // The pages drawn one by one: those changed, and those of late.
  const since=page=>(state.pages.get(page)||{since:0}).since,inside=page=>regions.some(([,first,stop])=>page>=first&&page<stop);
  const wanted=new Set([...state.pages.keys(),...changed].filter(page=>inside(page)&&(state.subpoolOf(page)||changed.has(page))));
  if(touched.size<=most&&!small)touched.forEach(page=>wanted.add(page));
  let pages=[...wanted].filter(page=>!state.wholeArea(page));
  if(many&&pages.length>most){
   const only=pages.filter(page=>changed.has(page));
   if(only.length>=2)pages=only;else most=3}
  pages.sort((one,other)=>changed.has(other)-changed.has(one)||since(other)-since(one)||one-other);
  return new Set(pages.slice(0,most))}
 function drawRegion(name,first,stop){
  const range=`${count(stop-first,"page")}, ${hex(first*PAGE)} to ${hex(stop*PAGE-1)}`;
  svg+=words(0,y+12,name,12,"soft")+words(across+margin,y+12,range,margin?11:9.5,"soft right");y+=18;
  if(many)drawOverview(first,stop);
  let ruled=!ruler;
  for(let page=first;page<stop;){
   if(!chosen.has(page)){page=drawBar(page,stop);continue}
   if(!ruled)drawOffsets();
   ruled=true;
   const drawn=drawPage(plan,page++,y);svg+=drawn.svg;y=drawn.y}
  y+=6}
 function drawOverview(first,stop){ // A region as a map, which a click zooms, with marks over the pages touched.
  const height=small?12:20,zoom=small?{first,stop}:zoomOf(first,stop),inside=page=>page>=zoom.first&&page<zoom.stop;
  const here=[...new Set([...changed,...marked])].filter(inside),pages=zoom.stop-zoom.first;
  const mark=page=>`M${round(margin+(page-zoom.first+.5)/pages*across)} ${y-1}l-3.5 -6h7z`;
  const map=strip(state,zoom.first,zoom.stop,margin,y,across,height)+path(here.map(mark).join(""),"ink");
  svg+=small?map:`<g class="map" data-first="${first}" data-stop="${stop}" data-from="${zoom.first}" data-to="${zoom.stop}">
<title>${pages<stop-first?"a click shows all pages":"a click shows fewer pages"}</title>${map}</g>`;
  if(margin)svg+=words(0,y+13,pages<stop-first?"zoom":"map",11,"soft");
  if(pages<stop-first)svg+=words(margin,y+height+11,`${hex(zoom.first*PAGE)} to ${hex(zoom.stop*PAGE-1)}`,10,"soft");
  y+=height+16}
 function drawOffsets(){
  for(let column=0;column<columns;column+=8)svg+=words(margin+column*wide,y+4,offset(column*8),9,"soft");
  y+=9}
 function kindOf(page){ // Of a page in a bar: free, used, or the area that fills it or did.
  const here={at:page*PAGE,length:PAGE},area=state.wholeArea(page);
  if(state.subpoolOf(page))return area&&(!many||area.since===state.index)?area:"used";
  return state.done.freed.find(freed=>freed.at<=here.at&&end(freed)>=end(here))||(many?"used":"free")}
 function drawBar(first,limit){ // A bar for pages of one kind; returns the page after them.
  const kind=kindOf(first),top=y+12,box=look=>rect(margin,top,across,9,look);let stop=first+1,text="",look="";
  while(stop<limit&&!chosen.has(stop)&&kindOf(stop)===kind)stop++;
  const pages=count(stop-first,"page"),{held}=shareHeld(state,first,stop);
  if(kind==="free"){svg+=box("strip");text=pages+" free";look="soft"}
  else if(state.done.freed.includes(kind)){svg+=box("freed");text=`${kind.name}, ${pages} freed`;look="bold"}
  else{
   svg+=strip(state,first,stop,margin,top,across,9)+(kind.since===state.index?box("edge"):"");
   text=kind!=="used"?`${kind.name}, ${pages} full`:pages+(held?`: ${count(held,"byte")} held`:" free")}
  svg+=words(margin,y+9,text,10,look);if(margin)svg+=words(0,y+10,hex(first*PAGE),size,"soft");
  descriptions.push(`${hex(first*PAGE)}: ${text}`);y+=small?24:27;return stop}}
function drawPage(plan,number,y){ // A page, as rows of doublewords. A span has its first doubleword, and the one after it.
 const{state,columns,rows,margin,ruler,wide,across,tall,size,small,shown,stale,descriptions}=plan,{done,index}=state;
 const page={at:number*PAGE,length:PAGE},{subpool,held}=state.pages.get(number)||{subpool:null,held:0},top=y+(margin?0:14);
 const left=column=>margin+column*wide,above=row=>top+row*tall,grid=()=>Array.from({length:rows},()=>new Array(columns).fill(false));
 // Labels must not cover what is written or occupied.
 let shapes="",marks="",texts="";
 const labels=[],written=grid(),occupied=grid(),areas=state.areasIn(page);drawGround();areas.forEach(occupy);
 areas.forEach(area=>area.pool?drawPart(area):drawArea(area));
 done.freed.filter(area=>overlap(area,page)).forEach(drawFreed);markAll(done.returned,"freed");drawStale();
 markAll(done.read.concat(done.asked),"read","read");markAll(done.written,"written","written");
 if(shown)markAll([shown],"window");
 labels.sort((one,other)=>other.isNew-one.isNew||(one.kind==="part")-(other.kind==="part")||one.first-other.first).forEach(place);
 drawNotes();return{svg:shapes+marks+texts,y:above(rows)+(small?8:13)};
 // The span of a range in the page.
 function spanOf(range){return{first:max(0,floor((range.at-page.at)/8)),stop:min(512,ceil((end(range)-page.at)/8))}}
 // The first and last row of a span, and its columns there.
 function cornersOf({first,stop}){return{row:floor(first/columns),last:floor((stop-1)/columns),from:first%columns,to:(stop-1)%columns+1}}
 function outline(range){
  const{row,last,from,to}=cornersOf(spanOf(range)),right=left(columns),next=above(row+1);
  const box=(from,row,to)=>`M${from} ${above(row)}H${to}V${above(row+1)}H${from}Z`;
  if(row===last)return box(left(from),row,left(to));
  if(last===row+1&&to<=from)return box(left(from),row,right)+box(margin,last,left(to));
  const below=to<columns?`V${above(last)}H${left(to)}V${above(last+1)}`:`V${above(last+1)}`;
  return`M${left(from)} ${above(row)}H${right}${below}H${margin}V${next}${from>0?"H"+left(from):""}Z`}
 function markAll(ranges,kind,title){for(const range of ranges)if(overlap(range,page))marks+=path(outline(range),kind,title)}
 function label(range,text,extra,kind,isNew){labels.push({text,extra,kind,isNew,...spanOf(range)})}
 function occupy(area){
  const{first,stop}=spanOf(area);for(let k=first;k<stop;k++)occupied[floor(k/columns)][k%columns]=true;
  descriptions.push(titleOf(area))}
 function drawGround(){
  let lines="";for(let row=1;row<rows;row++)lines+=`M${margin} ${above(row)}h${across}`;
  for(let column=8;column<columns;column+=8)lines+=`M${left(column)} ${top}v${rows*tall}`;
  shapes+=hued(subpool,rect(margin,top,across,rows*tall,subpool?"page":"unassigned")+path(lines,"lines faint"))}
 function drawArea(area){
  const isNew=area.since===index,within=area.at-area.first;
  shapes+=hued(area.subpool,path(outline(area),isNew?"area new":"area",titleOf(area)));
  label(area,area.name+(within?"+"+within:"")," "+area.length,"area",isNew)}
 function drawPart(area){ // A part of a cell pool: its head, and its cells.
  const{part,pool}=area,isNew=area.since===index,head=headOf(part);let svg=path(outline(area),"part",titleOf(area));
  if(head.length&&overlap(head,page))svg+=path(outline(head),"pool-head");
  for(const cell of cellsIn(area,page,index)){
   svg+=path(outlineOfCell(cell),cell.kind,`${cell.taken?"cell "+cell.taken.name:"free cell"} at ${hex(cell.at)}`);
   if(cell.taken)label(cell,cell.taken.name,"","cell",cell.taken.since===index)}
  shapes+=hued(area.subpool,svg+(isNew?path(outline(area),"edge"):""));
  label(area,area.name,`, ${count(part.count,"cell")} of ${pool.size}`,"part",isNew)}
 function outlineOfCell(cell){ // The outline of a cell, to the byte where it lies in one row.
  const from=(cell.at-page.at)/8,to=from+cell.length/8,row=floor(from/columns),column=row*columns;
  if(from<0||to>512||row!==floor((to-.01)/columns))return outline(cell);
  const start=left(from-column)+.7;return`M${start} ${above(row)+1.2}H${left(to-column)-.7}v${tall-2.4}H${start}z`}
 function drawFreed(area){
  marks+=path(outline(area),"freed",`freed: ${area.name} ${hex(area.at)}`);
  descriptions.push(`freed: ${area.name}, ${count(area.length,"byte")} at ${hex(area.at)}`);
  if(area.pool)label(area,area.name,"","gone",false)}
 function drawStale(){ // The stale names; of many, those of what is freed now.
  const freed=done.freed.concat(done.returned);
  for(const name of stale){
   const place=state.names.get(name),near=stale.length<=8||freed.some(range=>overlap(range,place));
   if(!near||!overlap(place,page))continue;
   label(place,name,"","gone",false);marks+=path(outline(place),"stale")}}
 function columnsOf(text){return ceil((text.length*size*.602+6)/wide)}
 function place(label){ // Writes a label where there is room.
  const kind=`${label.kind==="gone"?"gone soft ":""}${label.isNew?"bold ":""}halo`;
  for(const[row,column,text,inside]of spots(label)){
   if(!isClear(row,column,column+columnsOf(text),inside))continue;
   written[row].fill(true,column,column+columnsOf(text));
   const x=left(column)+3,y=above(row)+tall*.5+size*.35;
   if(label.kind==="gone")texts+=rect(x-1,y-size*.8,text.length*size*.602+2,size,"paper"); // legible on what is hatched
   texts+=words(x,y,text,size,kind);return}}
 function isClear(row,first,stop,inside){ // Whether no text is in some columns, and no area but a label's own.
  if(row<0||row>=rows||first<0||stop>columns)return false;
  const near=tall<size+2?[row-1,row,row+1].filter(other=>written[other]):[row]; // where rows are low, labels reach into the next ones
  for(let k=first;k<stop;k++)if(near.some(other=>written[other][k])||(!inside&&occupied[row][k]))return false;
  return true}
 function*spots(label){ // Places for a label, the best first; with its extra words, and without.
  const{kind,text,extra}=label,{row,from}=cornersOf(label),texts=[text+extra,text];
  if(kind==="area"||kind==="gone")for(const text of texts)yield*spotsInside(label,text);
  for(const text of texts)yield*spotsBeside(label,text);
  if(kind==="gone")for(let column=from;column<columns;column++)yield[row,column,text,true]}
 function*spotsInside(label,text){ // In the middle row, or in another.
  const{row,last,from,to}=cornersOf(label),order=[];for(let k=row;k<=last;k++)order.push(k);
  if(order.length>2)order.unshift(order[order.length>>1]);
  for(const k of order.slice(0,9)){
   const first=k===row?from:0,stop=min((k===last?to:columns)-columnsOf(text),first+39);
   for(let column=first;column<=stop;column++)yield[k,column,text,true]}}
 function*spotsBeside(label,text){ // To the right of an area, below, or above; about a cell.
  const{row,last,from,to}=cornersOf(label),fit=min(from,columns-columnsOf(text));
  if(label.kind==="cell")for(const by of[-1,1,2,3])yield[row+by,from,text];
  else yield*[[last,to,text],[last+1,max(0,fit),text],[row-1,fit,text],[last+2,fit,text]];
  if(label.kind==="part")for(let column=to;column<columns;column++)yield[last,column,text]}
 function drawNotes(){ // The page's address, subpool, and what is held.
  const line=top+(small?23:26.5),note=(x,y,text,size,kind)=>{shapes+=words(x,y,text,size,kind)};
  for(let row=0;ruler&&row<rows;row+=2)note(margin+across+5,above(row)+8.5,offset(row*columns*8),9,"soft");
  if(!margin)return note(0,y+10,`${hex(page.at)} ${subpool?`${named(subpool)}, ${held} held`:"unassigned"}`,11,"bold");
  note(0,top+11,hex(page.at),size+1,"bold");if(!subpool)return note(0,line,"unassigned",size,"soft");
  shapes+=hued(subpool,rect(0,top+(small?15:18),9,9,"swatch"));note(13,line,named(subpool),size);if(small)return;
  note(0,top+41,held+" held",10.5,"soft");note(0,top+54,PAGE-held+" free",10.5,"soft")}}
const titleOf=area=>`${area.name}: ${count(area.length,"byte")} at ${hex(area.at)}, ${named(area.subpool)}`;
// The head of a part of a pool, before its cells.
const headOf=part=>({at:part.at,length:part.cells-part.at});
function windowOf(done,before){ // The 128 or 256 bytes around what a statement touched, or those shown before.
 const ranges=placesOf(done);if(!ranges.length)return before;let from=ranges[0].at,to=end(ranges[0]);
 for(const range of ranges){
  if(abs(range.at-from)>=256)continue;
  from=min(from,range.at);to=max(to,min(end(range),from+256))}
 if(before&&from>=before.at&&to<=end(before))return before;
 let at=floor(from/128)*128,length=to-at>128?256:128;if(to-at>256&&from-at>64)at=floor(from/64)*64;
 if(before&&before.at===at)length=max(length,before.length);
 return{at,length}}
function drawCloseUp(state,width,shown,small){ // The close-up: bytes, and below them names.
 const{narrow,margin,ruler}=layoutOf(width,small),room=floor((width-margin-ruler-2)/64*2)/2*64,{done,index}=state;
 const across=narrow?width-4:small?min(room,512):room,whole=margin+across+ruler+2,top=24,height=26;
 if(!shown)return`<svg width="${whole}" height="98" aria-hidden="true"></svg>`;
 const scale=across/shown.length,left=at=>margin+(max(shown.at,min(end(shown),at))-shown.at)*scale;
 const marked=(ranges,draw)=>ranges.filter(range=>overlap(range,shown)).map(draw).join("");
 const svg=drawGround()+state.areasIn(shown).map(area=>hued(area.subpool,area.pool?drawPart(area):drawArea(area))).join("")+drawNames()
  +marked(done.freed.concat(done.returned),range=>box(range,"freed")+label(range,"freed","bold"))
  +marked(done.read.concat(done.asked),range=>box(range,"read"))+marked(done.written,range=>box(range,"written"));
 return picture(whole,98,`Close-up of ${shown.length} bytes from ${hex(shown.at)}`,state.statement.why,svg);
 function box(range,kind,inset=0){const x=left(range.at);return rect(x,top+inset,max(1,left(end(range))-x),height-2*inset,kind)}
 function label(range,text,kind){ // A text in the middle of a range, where it has room.
  const from=left(range.at),to=left(end(range));
  return to-from<text.length*7.2+4?"":words((from+to)/2,top+height/2+4,text,12,kind+" halo middle")}
 function drawGround(){ // The pages under the bytes, doublewords, and offsets.
  let svg="",lines="";
  if(margin)svg+=words(0,35,"close-up",12,"bold")+words(0,49,hex(shown.at),12)+words(0,63,shown.length+" bytes",10.5,"soft");
  for(const page of pagesOf(shown)){
   const subpool=state.subpoolOf(page),x=left(page*PAGE);
   svg+=hued(subpool,rect(x,top,left((page+1)*PAGE)-x,height,subpool?"page":"unassigned"))}
  for(let byte=8;byte<shown.length;byte+=8)lines+=`M${round(margin+byte*scale)} ${top}v${height}`;
  svg+=path(lines,"lines");
  for(let byte=0;byte<shown.length;byte+=shown.length/8)svg+=words(margin+byte*scale,top-4,offset((shown.at+byte)%PAGE),9,"soft");
  return svg}
 function drawArea(area){
  const isNew=area.since===index;
  return box(area,isNew?"area new":"area")+label(area,String(area.length),isNew?"bold":"")}
 function drawPart(area){
  const head=headOf(area.part),draw=cell=>box(cell,cell.kind,3)+label(cell,cell.taken?"taken":"free",cell.taken?"":"soft");
  return box(area,area.since===index?"part new":"part")+box(head,"pool-head")+label(head,"head of "+area.pool.name,"soft")
   +cellsIn(area,shown,index).map(draw).join("")}
 function drawNames(){ // The names, the latest first, in three rows as far as there is room.
  const rows=[[],[],[]],names=[...state.names].filter(([,place])=>overlap(place,shown));let svg="";
  for(const[name,place]of names.sort((one,other)=>other[1].since-one[1].since)){
   const from=left(place.at),to=max(left(end(place)),from+name.length*7.3+8);
   const row=rows.findIndex(taken=>taken.every(other=>to<=other.from||from>=other.to));if(row<0)continue;
   rows[row].push({from,to:to+2});svg+=drawName(name,place,top+height+10+row*15)}
  return svg}
 function drawName(name,place,y){ // A name, below a bracket over the bytes that it names.
  const from=left(place.at),to=left(end(place)),room=name.length*7.3+8,gone=state.isStale(name);
  const middle=to-from>room+6?(from+to)/2:from+room/2,text=(place.at<shown.at?"\u2026 ":"")+name,width=text.length*7.3+4;
  const line=`M${round(from+1)} ${y-5}v5H${round(to-1)}${end(place)<=end(shown)?"v-5":""}`;
  const kind=`bracket${state.missing(name)?" partly":""}${gone?" all":""}`,look=gone?"gone soft":place.since===index?"bold":"";
  return path(line,kind)+rect(middle-width/2,y-4,width,12,"paper")+words(middle,y+5,text,12,"middle "+look)}}
