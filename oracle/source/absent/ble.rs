//! Stand-in for a module that docs/src does not hold (the radio). Empty: none of the compiled files uses it.
