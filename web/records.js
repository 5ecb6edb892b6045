// What is asked of rollouts: their sets, groups, members and actions.
import {all, askText, get} from "./api.js";

export const ROLLOUTS = "/rest/v1/rollouts";
export const SETS = "/rest/v1/distributionsets";

export const titleOf = (it) => `${it.name} ${it.version}`;

// a set never changes
const sets = new Map();

export async function setOf(id) {
  if (!sets.has(id)) {
    sets.set(id, await get(`${SETS}/${id}`));
  }
  return sets.get(id);
}

export const groupsOf = async (id) => (await get(`${ROLLOUTS}/${id}/deploygroups?limit=500`)).content;

export const membersOf = (rollout, group) => all(`${ROLLOUTS}/${rollout}/deploygroups/${group}/targets`);

/** The actions of a rollout, from its table: there are none before it is started. */
export async function actionsOf(rollout) {
  const rows = (await askText("GET", `/desk/v1/rollouts/${rollout}/actions`)).trimEnd().split("\n").slice(1);
  return rows.map((it) => it.split(",")).map(([id, target, group, status]) => ({id: Number(id), target, group: Number(group), status, rollout}));
}

/** The rollouts that have devices at work, or will have. */
export const unfinished = async () => (await all(ROLLOUTS)).filter((it) => it.status === "running" || it.status === "paused");
