//! lindera-dictionary's own files, unchanged, under the module names they use for each other. What
//! stands here besides is the crate's root, stand-ins for modules outside the port, and accessors:
//! functions put beside a file's own so that they reach what it keeps private.

// The files hold more than the requests ask for.
#![allow(dead_code, unused_imports)]

include!(concat!(env!("OUT_DIR"), "/error.rs"));
include!(concat!(env!("OUT_DIR"), "/util.rs"));
pub mod viterbi;

pub type LinderaResult<T> = Result<T, crate::error::LinderaError>;

pub mod builder {
    pub mod character_definition {
        include!(concat!(
            env!("LINDERA_SRC"),
            "/builder/character_definition.rs"
        ));

        pub fn hex_codepoint(text: &str) -> LinderaResult<u32> {
            parse_hex_codepoint(text)
        }

        pub fn from_ucs2(number: u16) -> LinderaResult<u32> {
            ucs2_to_unicode(number)
        }

        /// The builder after reading `text`, with default options.
        pub fn read(text: &str) -> LinderaResult<CharacterDefinitionBuilder> {
            let mut builder = CharacterDefinitionBuilderOptions::default().builder();
            builder.parse(text)?;
            Ok(builder)
        }

        impl CharacterDefinitionBuilder {
            pub fn names_by_number(&self) -> Vec<&str> {
                let mut numbered: Vec<_> = self.category_index.iter().collect();
                numbered.sort_unstable_by_key(|(_, id)| **id);
                numbered
                    .into_iter()
                    .map(|(name, _)| name.as_str())
                    .collect()
            }

            pub fn definitions(&self) -> &[CategoryData] {
                &self.category_definition
            }

            pub fn ranges(&self) -> &[(u32, u32, Vec<CategoryId>)] {
                &self.char_ranges
            }

            pub fn row_table(&self) -> LookupTable<CategoryId> {
                self.build_lookup_table()
            }

            pub fn character_definition(&self) -> CharacterDefinition {
                self.get_character_definition()
            }
        }
    }
}

pub mod dictionary {
    include!(concat!(env!("OUT_DIR"), "/context_id_map.rs"));

    pub mod character_definition {
        include!(concat!(
            env!("LINDERA_SRC"),
            "/dictionary/character_definition.rs"
        ));

        impl<T: Copy + Clone> LookupTable<T> {
            pub fn boundaries(&self) -> &[u32] {
                &self.boundaries
            }

            pub fn rows(&self) -> &[Vec<T>] {
                &self.values
            }
        }

        impl CharacterDefinition {
            /// Offset and length in the flat pool, where the flat table serves `c`.
            pub fn packed(&self, c: char) -> Option<(u32, u16)> {
                self.lookup_categories_packed(c)
            }

            pub fn flat_pool(&self) -> &[CategoryId] {
                &self.flat_categories
            }

            pub fn flat_index(&self) -> &[u32] {
                &self.flat_index
            }
        }
    }

    pub mod unknown_dictionary {
        include!(concat!(
            env!("LINDERA_SRC"),
            "/dictionary/unknown_dictionary.rs"
        ));
    }

    /// Stands in for the type of this name in dictionary.rs, a file that needs the whole crate. It
    /// splits joined details at NUL, as the original does.
    pub struct DetailFields<'a>(std::str::Split<'a, char>);

    impl<'a> DetailFields<'a> {
        fn from_joined(joined: &'a str) -> Self {
            Self(joined.split('\0'))
        }
    }

    impl<'a> Iterator for DetailFields<'a> {
        type Item = &'a str;
        fn next(&mut self) -> Option<&'a str> {
            self.0.next()
        }
    }
}
