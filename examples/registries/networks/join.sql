-- What is found stands over what was typed. No pair of codes stands twice.
SELECT
  dirty.mcc,
  dirty.mnc,
  coalesce(networks.operator, dirty.operator),
  coalesce(networks.brand, dirty.brand),
  coalesce(networks.status, dirty.status),
  coalesce(networks.cc, dirty.country_code),
  coalesce(countries.name, dirty.country),
  coalesce(countries.alpha_3, dirty.alpha_3)
FROM dirty
LEFT JOIN networks ON networks.mcc = dirty.mcc AND networks.mnc = dirty.mnc
LEFT JOIN countries ON countries.alpha_2 = networks.cc COLLATE NOCASE
ORDER BY dirty.rowid;
