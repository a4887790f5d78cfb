<?php
[$a]
= 1;
