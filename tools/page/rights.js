import {state} from "./state.js";

export const canAct = () => Boolean(state.user) && state.user !== "dispatcher";
export const isOwn = row => Boolean(state.user) && row.owner === state.user;
export const whoseOf = row => isOwn(row) || !row.owner ? "" : row.owner + "'s ";
export const mayEnd = row => canAct() && (isOwn(row) || state.user === "admin");
