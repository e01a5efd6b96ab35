/* What the library was made of, for a contract to cite. host/test holds both against the toolchain (`rt version`) and NOTICE. */
#ifndef HOST_VERSION_H
#define HOST_VERSION_H

/* The toolchain by which the library is proved and built, as it names itself. */
#define HOST_TOOLCHAIN "rattle-kit-13f logic dac8208d650f15bf"

/* The Rust that the library ports. */
#define HOST_RUST "graycart/graycart-gba, commit 46607fe0ef"

#endif
