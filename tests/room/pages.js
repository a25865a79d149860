// What the tests ask of a page, within it. Each answer is a list of what is wrong.
const wrong = {
  // Each part is there, has a heading, and is named by it; whatever can be reached or is a picture has a name.
  names(parts) {
    const found = [];
    for (const part of parts) {
      const section = document.getElementById(part);
      const head = section && document.getElementById(section.getAttribute("aria-labelledby"));
      if (!head || !head.textContent.trim()) found.push(`part ${part} isn't there, or has no name`);
      if (!document.querySelector(`nav a[href="#${part}"]`)) found.push(`no link leads to ${part}`);
    }
    for (const image of document.querySelectorAll("img")) if (!image.alt || !image.complete || !image.naturalWidth) found.push(`a picture without a name, or that isn't read: ${image.alt}`);
    for (const each of document.querySelectorAll("[role=img],[role=region],[role=group],nav")) if (!each.getAttribute("aria-label")) found.push(`no name: ${each.outerHTML.slice(0, 80)}`);
    for (const link of document.querySelectorAll("a[href^='#']")) if (!document.getElementById(link.getAttribute("href").slice(1))) found.push(`a link leads nowhere: ${link.outerHTML}`);
    const ids = [...document.querySelectorAll("[id]")].map(each => each.id);
    if (new Set(ids).size !== ids.length) found.push("an id stands twice");
    if (!document.documentElement.lang || !document.title || document.querySelectorAll("h1").length !== 1) found.push("language, title or heading");
    return found;
  },

  // No text is wider than its place, stands outside of the page or over another text of the drawings.
  cuts() {
    const found = [];
    const width = document.documentElement.clientWidth;
    if (document.documentElement.scrollWidth > width) found.push(`the page is ${document.documentElement.scrollWidth} wide, the window ${width}`);
    const walker = document.createTreeWalker(document.body, NodeFilter.SHOW_TEXT);
    for (let node = walker.nextNode(); node; node = walker.nextNode()) {
      const parent = node.parentElement;
      if (!node.data.trim() || parent.closest("script,style,title,[hidden],svg") || (parent.closest("details:not([open])") && !parent.closest("summary"))) continue;
      const range = document.createRange();
      range.selectNodeContents(node);
      const scrolls = parent.closest(".wide,.rows,pre");
      for (const box of range.getClientRects()) {
        const right = scrolls ? scrolls.getBoundingClientRect().left + scrolls.scrollWidth - scrolls.scrollLeft : width;
        if (box.right > right + 1 || box.left < -1 && !scrolls) found.push(`cut: ${node.data.slice(0, 60)}`);
      }
      for (let each = parent; each && each !== document.body; each = each.parentElement) {
        const style = getComputedStyle(each);
        if (["hidden", "clip"].includes(style.overflowX) && each.scrollWidth > each.clientWidth + 1) found.push(`hidden: ${node.data.slice(0, 60)}`);
      }
    }
    return [...new Set(found), ...wrong.drawn()];
  },

  drawn() {
    const found = [];
    for (const drawing of document.querySelectorAll(".drawing svg")) {
      const texts = [...drawing.querySelectorAll("text")];
      const view = drawing.viewBox.baseVal;
      const boxes = texts.map(each => each.getBBox());
      boxes.forEach((box, place) => {
        if (box.x < -1 || box.x + box.width > view.width + 1 || box.y + box.height > view.height + 3) found.push(`outside of the drawing: ${texts[place].textContent}`);
        for (let other = 0; other < place; other++) {
          const b = boxes[other];
          if (box.x < b.x + b.width && b.x < box.x + box.width && box.y + 2 < b.y + b.height && b.y + 2 < box.y + box.height) found.push(`${texts[place].textContent} over ${texts[other].textContent}`);
        }
      });
      for (const group of drawing.querySelectorAll("g")) {
        const name = group.querySelector("text");
        const path = [...group.querySelectorAll("path")].pop();
        if (name && path && name.getBBox().x + name.getBBox().width > path.getBBox().x + path.getBBox().width + 1) found.push(`beyond its event: ${name.textContent}`);
      }
    }
    return found;
  },
};
