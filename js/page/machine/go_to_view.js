// The field for an address to show in the disassembly, and the button that sets or removes a breakpoint at this address.

import { Cell, block, button, byId, element, field, onClick } from "../ui/dom.js";
import { parseGoToTarget } from "../../core/machine/go_to_target.js";

/**
 * @typedef {import("../../core/machine/source_map.js").SourceMap} SourceMap
 * @typedef {{ goTo: (address: number) => void }} AddressView a view that can show an address
 */

export class GoToView {
  /**
   * @param {AddressView} listing
   * @param {(address: number) => void} toggleBreakpoint
   * @param {(address: number) => void} onGoTo called after the disassembly has scrolled to an address
   */
  constructor(listing, toggleBreakpoint, onGoTo) {
    this.listing = listing;
    this.onGoTo = onGoTo;
    this.field = field("go-to");
    this.nameList = byId("names", HTMLDataListElement);
    this.status = new Cell(block("go-to-status"));
    /** @type {SourceMap | null} */
    this.map = null;
    this.field.addEventListener("change", () => this.goToTypedAddress());
    // If the text is unchanged, Enter causes no `change` event.
    this.field.addEventListener("keydown", (event) => event.key === "Enter" && this.goToTypedAddress());
    const breakpointButton = button("break-there");
    onClick(breakpointButton, () => {
      const address = this.goToTypedAddress();
      if (address !== null) toggleBreakpoint(address);
    });
  }

  /** @param {SourceMap | null} map the source map of the program in ROM; the field offers its names */
  setNames(map) {
    this.map = map;
    const names = map ? [...map.names.keys()].sort() : [];
    this.nameList.replaceChildren(...names.map((name) => element("option", { value: name })));
  }

  /**
   * Shows the typed address in the disassembly. Returns the address. If the typed text is not an address or a name, shows a message and
   * returns null.
   */
  goToTypedAddress() {
    const { address, message } = parseGoToTarget(this.field.value, this.map);
    this.status.set(message);
    this.field.setAttribute("aria-invalid", String(message !== ""));
    if (message !== "") return null;
    this.show(address);
    return address;
  }

  /** @param {number} address */
  show(address) {
    this.listing.goTo(address);
    this.onGoTo(address);
  }
}
