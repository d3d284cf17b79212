// What a browser says of a page: where its texts, boxes and lines lie, which links have no target, and how much its texts differ from what is behind
// them. It is the body of a function, and returns JSON: `bad` lists what isn't as it should be.
const bad = [];
const all = (selector, root) => [...(root || document).querySelectorAll(selector)];
const told = text => text.replace(/\s+/g, " ").slice(0, 60);
for (const folded of all("details")) folded.open = true;

// ---- the picture
const picture = document.querySelector(".pic>svg");
const boxes = picture ? all("svg", picture).map(s => ({x: s.x.baseVal.value, y: s.y.baseVal.value, w: s.width.baseVal.value, h: s.height.baseVal.value, s})) : [];
for (const b of boxes)
    for (const text of all("text", b.s)) {
        const wide = text.getComputedTextLength();
        if (wide > b.w - 2) bad.push(`a text is wider than its box: ${told(text.textContent)}: ${wide} in ${b.w}`);
    }
for (let i = 0; i < boxes.length; i++)
    for (let j = 0; j < i; j++) {
        const [a, b] = [boxes[i], boxes[j]];
        if (a.x < b.x + b.w && b.x < a.x + a.w && a.y < b.y + b.h && b.y < a.y + a.h) bad.push(`overlap: ${told(a.s.textContent)} and ${told(b.s.textContent)}`);
    }
let lines = 0;
for (const path of picture ? all("g path", picture) : []) {
    if (path.closest("marker")) continue;
    lines++;
    const length = path.getTotalLength(), steps = Math.max(60, Math.min(400, Math.round(length / 4)));
    const points = [];
    for (let k = 0; k <= steps; k++) points.push(path.getPointAtLength(length * k / steps));
    const [left, right] = [Math.min(...points.map(p => p.x)), Math.max(...points.map(p => p.x))];
    const near = boxes.filter(b => b.x < right && b.x + b.w > left);
    for (const p of points) {
        const box = near.find(b => p.x > b.x + .6 && p.x < b.x + b.w - .6 && p.y > b.y + .6 && p.y < b.y + b.h - .6);
        if (box) { bad.push(`a line goes through a box: ${told(box.s.textContent)}: ${path.getAttribute("d")}`); break; }
    }
}

// ---- links
for (const link of all("a")) {
    const to = link.getAttribute("href");
    if (new URL(to, "https://ci.example/pages/page.html").origin != "https://ci.example") bad.push(`a link leads away: ${to}`);
    if (to[0] == "#" && !document.getElementById(to.slice(1))) bad.push(`a link leads nowhere: ${to}`);
}
const ids = all("[id]").map(e => e.id);
if (new Set(ids).size != ids.length) bad.push("an id is there twice");

// ---- what lies where
const scrolls = e => { for (; e; e = e.parentElement) if (e.scrollWidth > e.clientWidth && /auto|scroll/.test(getComputedStyle(e).overflowX)) return e; return null; };
if (document.documentElement.scrollWidth > innerWidth) bad.push(`wider than the window: ${document.documentElement.scrollWidth} in ${innerWidth}`);
for (const e of all("body *")) {
    if (e.closest("svg")) continue;
    const may_scroll = /auto|scroll/.test(getComputedStyle(e).overflowX);
    if (e.scrollWidth > e.clientWidth + 1 && may_scroll && !e.matches(".pic, .wide, .ev table")) bad.push(`scrolls sideways: ${e.tagName} ${told(e.textContent)}`);
    const r = e.getBoundingClientRect();
    if (r.width && (r.right > innerWidth + 1 || r.left < -1) && !scrolls(e) && !e.matches(".skip, caption"))
        bad.push(`outside of the window: ${e.tagName} ${told(e.textContent)}: ${r.left} to ${r.right}`);
}
// Things that stand one beside or below the other. Of texts it is looked whether they are within the element that has them.
for (const group of [".sum>li", "ol>li", ".why>li", "article", "main>section", "header>*", ".ev tr", "article>*", ".key>*"])
    for (const parent of new Set(all(group).map(e => e.parentElement))) {
        const rects = all(group, document).filter(e => e.parentElement == parent && e.getBoundingClientRect().width).map(e => [e.getBoundingClientRect(), e]);
        for (let i = 1; i < rects.length; i++) {
            const [[a, one], [b, other]] = [rects[i - 1], rects[i]];
            const meet = a.left < b.right - 1 && b.left < a.right - 1 && a.top < b.bottom - 1 && b.top < a.bottom - 1;
            if (meet && getComputedStyle(one).display != "inline") bad.push(`overlap in ${group}: ${told(one.textContent)} and ${told(other.textContent)}`);
        }
    }

// ---- contrast
const light = c => {
    const [r, g, b] = c.map(v => v / 255).map(v => v <= .03928 ? v / 12.92 : ((v + .055) / 1.055) ** 2.4);
    return .2126 * r + .7152 * g + .0722 * b;
};
const numbers = text => (text.match(/[0-9.]+/g) || []).map(Number);
const behind = e => {
    for (; e; e = e.parentElement) {
        if (e instanceof SVGElement) {
            const rect = e.tagName == "svg" && e.querySelector(":scope>rect");
            if (rect) return numbers(getComputedStyle(rect).fill).slice(0, 3);
            continue;
        }
        const colour = numbers(getComputedStyle(e).backgroundColor);
        if (colour.length && (colour.length < 4 || colour[3] > 0)) return colour.slice(0, 3);
    }
    return [255, 255, 255];
};
let least = 99, where = "", texts = 0;
const walk = document.createTreeWalker(document.body, NodeFilter.SHOW_TEXT);
const looked = (text, colour, e) => {
    const [a, b] = [light(colour), light(behind(e))], contrast = (Math.max(a, b) + .05) / (Math.min(a, b) + .05);
    texts++;
    if (contrast < least) { least = contrast; where = `${told(text)}: ${colour} on ${behind(e)}`; }
};
while (walk.nextNode()) {
    const text = walk.currentNode, e = text.parentElement;
    if (!text.data.trim() || e.closest("script, style, title, desc")) continue;
    const style = getComputedStyle(e);
    looked(text.data, numbers(e instanceof SVGElement ? style.fill : style.color).slice(0, 3), e);
    const range = document.createRange();
    range.selectNodeContents(text);
    const r = range.getBoundingClientRect();
    const outside = r.width && (r.right > innerWidth + 1 || r.left < -1);
    if (outside && !(e instanceof SVGElement) && !scrolls(e) && !e.closest(".skip")) bad.push(`a text is outside of the window: ${told(text.data)}`);
}
for (const e of all("ol li, .key b")) {
    const style = getComputedStyle(e, e.matches("li") ? "::after" : "::before");
    if (style.content && style.content != "none" && style.content != "normal") looked(`the letter of ${e.className}`, numbers(style.color).slice(0, 3), e);
}
if (least < 4.5) bad.push(`contrast ${least.toFixed(2)} of ${where}`);
return JSON.stringify({boxes: boxes.length, lines, texts, least: least.toFixed(2), where, width: innerWidth, dark: matchMedia("(prefers-color-scheme: dark)").matches,
    count: bad.length, bad: bad.slice(0, 8)});
