// The states of rollouts, groups, targets and actions, as badges.
import {badge} from "./drawing.js";
import {t} from "./language.js";

const KINDS = {
  rollout: {waiting_for_approval: "waiting", approval_denied: "bad", ready: "waiting", running: "open", paused: "paused", finished: "ok"},
  group: {ready: "waiting", scheduled: "waiting", running: "open", error: "bad", finished: "ok"},
  target: {unknown: "waiting", pending: "open", in_sync: "ok", error: "bad"},
  action: {scheduled: "waiting", running: "open", canceling: "paused", finished: "ok", error: "bad", canceled: "gone"},
};

export const stateBadge = (of, state) => badge(KINDS[of][state], t(`${of}.${state}`));
