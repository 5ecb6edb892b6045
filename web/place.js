/** Where a call is: beside the page. Below an address that has a login in it browsers refuse to ask, and don't below its origin. */
export const urlOf = (path) => location.origin + location.pathname.replace(/\/page\/.*$/, "") + path;
