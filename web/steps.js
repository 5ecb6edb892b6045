// The three steps to a first rollout, where there is nothing to show yet.
import {h, link} from "./drawing.js";
import {t} from "./language.js";
import {ifSteers} from "./me.js";

const STEPS = [["#/targets", "steps.devices"], ["#/firmware", "steps.firmware"], ["#/rollouts/new", "steps.plan"]];

export const firstSteps = () => ifSteers(() => h("section", {class: "card", id: "first-steps", "data-key": "first-steps"}, h("h2", {}, t("steps.title")),
  h("ol", {}, STEPS.map(([to, words]) => h("li", {}, link(to, t(words)))))));
