// What the page begins with: its buttons, its keys, and the first question to the program.
let guarded = false;

// The page's own lock, against a sleeve: one press on, held to take off. It stops orders, and not looking.
function setGuard(isOn) {
  const buttonElement = $("guard");
  guarded = isOn;
  aria(buttonElement, "pressed", isOn);
  put(buttonElement.lastElementChild, isOn ? "Locked: hold" : "Panel lock");
  buttonElement.firstElementChild.replaceWith(icon(isOn ? "held" : "free"));
  aria(buttonElement, "label", isOn ? "Panel lock: on; hold to take it off" : "Panel lock: off");
  doc.body.classList.toggle("guarded", isOn);
  forgetHints();
  log("panel lock " + (isOn ? "on" : "off"), "");
}

function muteAll() {
  const count = mutesOf(strips).length;
  if (!mayAct("mute all")) return;
  askFirst("Mute all?", "Each of the device's " + count + " mutes is set, also those that are not shown.",
    (options, answer) => answer("Mute all " + count, "red", () => mayAct("mute all") && changeMany(mutesOf(strips), () => "muted", "mute all")));
}

function setChosen(word, what) {
  if (mayAct(what)) changeMany(mutesOf(chosenStrips()), () => word, what);
}

function toggleLog() {
  $("log").hidden = !$("log").hidden;
  aria($("show-log"), "expanded", !$("log").hidden);
}

function findByKey(event) {
  const find = $("find");
  if (event.key === "/" && !/INPUT|SELECT/.test(event.target.tagName) && !popUp.open) {
    event.preventDefault();
    find.focus();
  } else if (event.key === "Escape" && event.target === find) {
    find.value = "";
    filter();
  }
}

function begin() {
  if (location.search) history.replaceState(null, "", location.pathname);
  onHold($("guard"), () => setGuard(false), { title: () => "Take the panel lock off", plain: { is: () => !guarded, act: () => setGuard(true) } });
  onHold($("unmute-chosen"), () => setChosen("unmuted", "unmute of the selection"), { title: () => "Unmute the selection" });
  $("mute-chosen").onclick = () => setChosen("muted", "mute of the selection");
  $("choose-none").onclick = chooseNone;
  $("mute-all").onclick = muteAll;
  $("undo").onclick = undo;
  $("bank-left").onclick = () => goByBank(-1);
  $("bank-right").onclick = () => goByBank(1);
  $("dismiss").onclick = dismiss;
  $("show-log").onclick = toggleLog;
  $("find").oninput = $("renew").onclick = filter;
  for (const id of ["only-muted", "only-locked"]) {
    $(id).onclick = () => {
      aria($(id), "pressed", !isPressed(id));
      filter();
    };
  }
  $("jump").onchange = event => {
    jumpTo(event.target.value);
    event.target.value = "";
  };
  narrow.onchange = layOutAgain;
  doc.onkeydown = findByKey;
  doc.onvisibilitychange = wakeUp;
  setInterval(() => {
    drawAges();
    drawLink();
    drawSums();
    giveUpUnheard();
  }, 250);
  poll();
}

begin();
