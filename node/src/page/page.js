"use strict";
// Fetches the page anew and puts in the parts that have changed. Without this script the page is the same, and is loaded anew by hand.
const every = 2000;
const state = document.getElementById("state");
let since = null;

function put(fresh) {
    for (const part of fresh.querySelectorAll("[data-part]")) {
        const here = document.getElementById(part.id);
        if (here && here.innerHTML !== part.innerHTML) {
            const focused = here.contains(document.activeElement) ? document.activeElement.id : "";
            here.innerHTML = part.innerHTML;
            if (focused) document.getElementById(focused)?.focus();
        }
    }
    for (const picture of fresh.querySelectorAll("img[data-picture]")) {
        const here = document.getElementById(picture.id);
        if (!here) continue;
        here.alt = picture.alt;
        // the old picture stays until the new one has come
        if (here.getAttribute("src") !== picture.getAttribute("src")) here.setAttribute("src", picture.getAttribute("src"));
    }
    document.title = fresh.title;
}

async function once() {
    try {
        const answer = await fetch("/", { cache: "no-store", signal: AbortSignal.timeout(5 * every) });
        if (!answer.ok) throw new Error(String(answer.status));
        put(new DOMParser().parseFromString(await answer.text(), "text/html"));
        since = null;
        state.classList.remove("stale");
    } catch {
        since = since ?? new Date();
        state.textContent = "This page has had no answer since " + since.toLocaleTimeString() + ": what is below is older.";
        state.classList.add("stale");
    }
    setTimeout(once, every);
}

setTimeout(once, every);
